{ When a sheet is turned down: the numbers 1 to 12 of document 01's section of
  that name, and 18 of request 5 of document 02, which is tried after 12. Each number
  is tried over the whole sheet before the next. }
unit refusals;

{$mode objfpc}{$H+}{$R+}{$Q+}

interface

uses
  sheets;

const
  NotRefused = 0;
  TopCapacity = 100000; { tenths of a megawatt }
  TopPrice = 200000000; { tiyn per megawatt and month }
  LowestZ = 10;         { tenths }

{ Numbers 1 to 6, which need the header and the count of bytes handed over. }
function RefusalByHeader(const Header: THeader; BytesHandedOver: Int64): Integer;

{ Numbers 7 to 12 and 18, for a sheet that passed 1 to 6 and has been read whole. }
function RefusalByBody(const Sheet: TSheet; BufferLength: Int64): Integer;

{ The same under the 2015 text, request 4 of document 02: number 7 asks for the size of
  that text's own result. }
function RefusalByBody2015(const Sheet: TSheet; BufferLength: Int64): Integer;

{ The same without 7, for an entry that has no result buffer: numbers 8 to 12 and 18. }
function RefusalByFigures(const Sheet: TSheet): Integer;

{ Number 9, which marks try again over other figures. }
function SomeCapacityTooHigh(const Sheet: TSheet): Boolean;

{ Number 18, of one row and of the whole sheet. }
function DaysAreWrong(const Row: TRow; DaysInMonth: Integer): Boolean;
function SomeDaysAreWrong(const Sheet: TSheet): Boolean;

implementation

uses
  results, texts2015;

const
  FewestDays = 28;
  TopCoefficient = 1000000;
  TopZ = 100;

{ Number 4 }
function MonthIsWrong(const Header: THeader): Boolean;
begin
  if (Header.Days < FewestDays) or (Header.Days > MostDays) then Exit(True);
  if (Header.FirstWeekday < 1) or (Header.FirstWeekday > 7) then Exit(True);
  { Some bit at or above the number of days: the field is then at least the
    power of two that belongs to the first day past the month. }
  Result := Int64(Header.Holidays) >= Int64(1) shl Header.Days;
end;

{ Number 5 }
function CountsAreWrong(const Header: THeader): Boolean;
begin
  Result := (Header.ProducerCount > MostProducers)
    or (Header.RowCount > MostRows)
    or (Header.ConsumerCount > MostConsumers);
end;

function RefusalByHeader(const Header: THeader; BytesHandedOver: Int64): Integer;
begin
  if BytesHandedOver < HeaderWidth then Exit(1);
  if Header.SheetLength <> BytesHandedOver then Exit(2);
  if not (Header.Version in [VersionOfMonths..VersionOfColumns]) then Exit(3);
  if MonthIsWrong(Header) then Exit(4);
  if CountsAreWrong(Header) then Exit(5);
  if Header.SheetLength <> LengthAskedFor(Header) then Exit(6);
  Result := NotRefused;
end;

{ Number 8 }
function CountsOrCoefficientsTooHigh(const Sheet: TSheet): Boolean;
var
  Number: Integer;
  Month: Int64;
begin
  Month := HoursInMonth(Sheet.Header);
  for Number := 0 to Sheet.Header.ProducerCount - 1 do
    with Sheet.Producers[Number] do
    begin
      if HoursWithoutUpwardBid > Month then Exit(True);
      if HoursWithoutDownwardBid > Month then Exit(True);
      if HoursWithoutPlan > Month then Exit(True);
      if K3 > TopCoefficient then Exit(True);
      if K6 > TopCoefficient then Exit(True);
      if K7 > TopCoefficient then Exit(True);
      if K8 > TopCoefficient then Exit(True);
      if K9 > TopCoefficient then Exit(True);
      if K10 > TopCoefficient then Exit(True);
    end;
  Result := False;
end;

{ Number 9, one producer with its hours }
function ProducerCapacityTooHigh(const Producer: TProducer; HourCount: Integer): Boolean;
var
  Hour: Integer;
  Series: TSeries;
begin
  if Producer.AttestedCapacity > TopCapacity then Exit(True);
  if Producer.DeductibleCapacity > TopCapacity then Exit(True);
  if Producer.GreatestOwnNeeds > TopCapacity then Exit(True);
  for Hour := 0 to HourCount - 1 do
    for Series := Low(TSeries) to High(TSeries) do
      if Producer.Hours[Hour][Series] > TopCapacity then Exit(True);
  Result := False;
end;

{ Number 9 }
function SomeCapacityTooHigh(const Sheet: TSheet): Boolean;
var
  Number: Integer;
begin
  for Number := 0 to Sheet.Header.ProducerCount - 1 do
    if ProducerCapacityTooHigh(Sheet.Producers[Number], HoursInMonth(Sheet.Header)) then
      Exit(True);
  for Number := 0 to Sheet.Header.RowCount - 1 do
    if Sheet.Rows[Number].Volume > TopCapacity then Exit(True);
  for Number := 0 to Sheet.Header.ConsumerCount - 1 do
  begin
    if Sheet.Consumers[Number].ContractVolume > TopCapacity then Exit(True);
    if Sheet.Consumers[Number].Peak > TopCapacity then Exit(True);
  end;
  Result := False;
end;

{ Number 10 }
function SomeReferenceIsWrong(const Sheet: TSheet): Boolean;
var
  Number: Integer;
begin
  for Number := 0 to Sheet.Header.RowCount - 1 do
  begin
    if Sheet.Rows[Number].Producer >= Sheet.Header.ProducerCount then Exit(True);
    if not IsSupportRow(Sheet.Rows[Number]) then
      if Sheet.Rows[Number].Consumer >= Sheet.Header.ConsumerCount then Exit(True);
  end;
  Result := False;
end;

{ Number 11 }
function SomePriceTooHigh(const Sheet: TSheet): Boolean;
var
  Number: Integer;
begin
  for Number := 0 to Sheet.Header.RowCount - 1 do
    if Sheet.Rows[Number].Price > TopPrice then Exit(True);
  for Number := 0 to Sheet.Header.ConsumerCount - 1 do
    if Sheet.Consumers[Number].Price > TopPrice then Exit(True);
  Result := False;
end;

{ Number 12 }
function SomeMiningDaysOrZWrong(const Sheet: TSheet): Boolean;
var
  Number: Integer;
begin
  for Number := 0 to Sheet.Header.ConsumerCount - 1 do
    with Sheet.Consumers[Number] do
    begin
      if SupplierMiningDays > Sheet.Header.Days then Exit(True);
      if GridMiningDays > Sheet.Header.Days then Exit(True);
      if (Z < LowestZ) or (Z > TopZ) then Exit(True);
    end;
  Result := False;
end;

{ Number 18. A row of version 1 covers the month, so its days are never wrong. }
function DaysAreWrong(const Row: TRow; DaysInMonth: Integer): Boolean;
begin
  Result := (Row.FirstDay = 0)
    or (Row.LastDay < Row.FirstDay)
    or (Row.LastDay > DaysInMonth);
end;

function SomeDaysAreWrong(const Sheet: TSheet): Boolean;
var
  Number: Integer;
begin
  for Number := 0 to Sheet.Header.RowCount - 1 do
    if DaysAreWrong(Sheet.Rows[Number], Sheet.Header.Days) then Exit(True);
  Result := False;
end;

function RefusalByFigures(const Sheet: TSheet): Integer;
begin
  if CountsOrCoefficientsTooHigh(Sheet) then Exit(8);
  if SomeCapacityTooHigh(Sheet) then Exit(9);
  if SomeReferenceIsWrong(Sheet) then Exit(10);
  if SomePriceTooHigh(Sheet) then Exit(11);
  if SomeMiningDaysOrZWrong(Sheet) then Exit(12);
  if SomeDaysAreWrong(Sheet) then Exit(18);
  Result := NotRefused;
end;

function RefusalByBody(const Sheet: TSheet; BufferLength: Int64): Integer;
begin
  if BufferLength < ResultLength(Sheet.Header) then Exit(7);
  Result := RefusalByFigures(Sheet);
end;

function RefusalByBody2015(const Sheet: TSheet; BufferLength: Int64): Integer;
begin
  if BufferLength < ResultLength2015(Sheet.Header) then Exit(7);
  Result := RefusalByFigures(Sheet);
end;

end.
