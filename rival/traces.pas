{ The figures between the sheet and the result, set out for a person who checks
  them by hand. Not part of the papers; the letters are those of document 01. }
unit traces;

{$mode objfpc}{$H+}{$R+}{$Q+}

interface

uses
  sheets, settlements;

procedure WriteTrace(var Paper: Text; const Sheet: TSheet; const Settlement: TSettlement);

implementation

uses
  exact, listings;

{ A whole number of parts, Parts to the unit, with as many decimals. }
function DecimalText(Value, Parts: QWord; Decimals: Integer): string;
var
  Tail: string;
begin
  Str(Value mod Parts, Tail);
  while Length(Tail) < Decimals do
    Tail := '0' + Tail;
  Str(Value div Parts, Result);
  Result := Result + '.' + Tail;
end;

function HundredthsText(Hundredths: QWord): string;
begin
  Result := DecimalText(Hundredths, 100, 2);
end;

function MillionthsText(Millionths: QWord): string;
begin
  Result := DecimalText(Millionths, 1000000, 6);
end;

{ The excess of a consumer is a number of twentieths of a tenth, so thousandths
  of a megawatt show it whole. }
function ExcessText(const Excess: TFraction): string;
var
  ExactHalf: Boolean;
begin
  Result := DecimalText(RoundedHalfUp(Excess * Whole(100), ExactHalf), 1000, 3);
end;

function SumsText(const Sums: TSums): string;
begin
  Result := 'T ' + TenthsText(Sums.T) + ', B ' + TenthsText(Sums.B)
    + ', S ' + TenthsText(Sums.S);
end;

procedure WriteProducer(var Paper: Text; Number: Integer; const Figures: TProducerFigures);
begin
  with Figures do
  begin
    WriteLn(Paper, 'Producer ', Number, ': rows ', RowCount);
    WriteLn(Paper, '  before the cut ', SumsText(BeforeCut), ', excess ',
      TenthsText(Excess));
    WriteLn(Paper, '  after the cut ', SumsText(AfterCut));
    WriteLn(Paper, '  control hours ', ControlHours, ', their sum ', TenthsText(ControlSum),
      ', average ', HundredthsText(ControlAverage), ', D ', HundredthsText(OverUse.D),
      ', p ', OverUse.P, ', n ', TenthsText(OverUse.N));
    WriteLn(Paper, '  sum of m ', TenthsText(OverHours.M),
      ', sum of the smaller of m and working ', TenthsText(OverHours.Worked));
    WriteLn(Paper, '  k1 ', MillionthsText(K[1]), ', k2 ', MillionthsText(K[2]),
      ', k4 ', MillionthsText(K[4]), ', k5 ', MillionthsText(K[5]));
  end;
end;

{ k1 and k4 of a single row are in its one fraction. }
procedure WriteProducts(var Paper: Text; const Producer: TProducerFigures;
  const Figures: TRowFigures);
var
  Factor: Integer;
begin
  if Producer.AsOneFraction then
    WriteLn(Paper, '  volume x k1 x k4 ', FractionText(OneFraction(Producer,
      Figures.VolumeAfterCut * MillionthsInTenth)), ' millionths, rounded ',
      MillionthsText(Figures.Products[1]));
  Write(Paper, '  products');
  for Factor := 1 to 10 do
    if not (Producer.AsOneFraction and (Factor in [1, 4])) then
      Write(Paper, ' k', Factor, ' ', MillionthsText(Figures.Products[Factor]));
  WriteLn(Paper);
end;

procedure WriteRow(var Paper: Text; Number: Integer; const Row: TRow;
  const Producer: TProducerFigures; DaysInMonth: Integer; const Figures: TRowFigures);
begin
  Write(Paper, 'Row ', Number, ': producer ', Row.Producer);
  if IsSupportRow(Row) then
    Write(Paper, ', support row')
  else
    Write(Paper, ', bilateral row, consumer ', Row.Consumer);
  WriteLn(Paper, ', volume ', TenthsText(Row.Volume),
    ', after the cut ', TenthsText(Figures.VolumeAfterCut));
  WriteProducts(Paper, Producer, Figures);
  WriteLn(Paper, '  days ', Row.FirstDay, ' to ', Row.LastDay, ', covered ',
    DaysCovered(Row), ' of ', DaysInMonth, ', product for them ',
    MillionthsText(Figures.ForDaysCovered));
  WriteLn(Paper, '  actual volume ', TenthsText(Figures.ActualVolume),
    ', payment ', TengeText(Figures.Payment));
end;

procedure WriteConsumer(var Paper: Text; Number: Integer; const Consumer: TConsumer;
  const Figures: TConsumerFigures);
begin
  with Figures do
  begin
    WriteLn(Paper, 'Consumer ', Number, ': DO ', TenthsText(Consumer.ContractVolume),
      ', peak ', TenthsText(Consumer.Peak), ', credit ', TenthsText(Credit),
      ', counted peak ', TenthsText(CountedPeak));
    WriteLn(Paper, '  Do ', ExcessText(Excess), ', p ', P, ', n ', TenthsText(N),
      ', actual volume ', TenthsText(ActualVolume), ', charge ', TengeText(Charge));
  end;
end;

{ How a producer's hours stand in the sheet: each series with the place of its first
  power among the bytes of the hours, and the bytes from one power to the next. }
procedure WriteLayout(var Paper: Text; const Header: THeader);
const
  SeriesNames: array[TSeries] of string = ('working', 'possible', 'outside use');
var
  Layout: TLayout;
  Series: TSeries;
begin
  if Header.Version = VersionOfColumns then
    Write(Paper, 'Hours by column:')
  else
    Write(Paper, 'Hours hour by hour:');
  Layout := LayoutOfHours(Header.Version, HoursInMonth(Header));
  for Series := Low(TSeries) to High(TSeries) do
  begin
    if Series > Low(TSeries) then Write(Paper, ',');
    Write(Paper, ' ', SeriesNames[Series], ' from byte ', Layout[Series].Start,
      ' every ', Layout[Series].Step);
  end;
  WriteLn(Paper);
end;

procedure WriteTrace(var Paper: Text; const Sheet: TSheet; const Settlement: TSettlement);
var
  Number: Integer;
begin
  WriteLn(Paper, 'Month: version ', Sheet.Header.Version, ', days ', Sheet.Header.Days,
    ', first weekday ', Sheet.Header.FirstWeekday, ', H ', HoursInMonth(Sheet.Header));
  WriteLayout(Paper, Sheet.Header);
  for Number := 0 to Sheet.Header.ProducerCount - 1 do
    WriteProducer(Paper, Number, Settlement.Producers[Number]);
  for Number := 0 to Sheet.Header.RowCount - 1 do
    WriteRow(Paper, Number, Sheet.Rows[Number],
      Settlement.Producers[Sheet.Rows[Number].Producer], Sheet.Header.Days,
      Settlement.Rows[Number]);
  for Number := 0 to Sheet.Header.ConsumerCount - 1 do
    WriteConsumer(Paper, Number, Sheet.Consumers[Number], Settlement.Consumers[Number]);
  WriteLn(Paper, 'Total paid ', TengeText(Settlement.TotalPaid),
    ', total charged ', TengeText(Settlement.TotalCharged));
end;

end.
