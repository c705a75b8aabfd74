{ Marks of industrial complexes: which corners of request 3 of document 02 a record
  reaches on an accepted sheet, or beside one refused by 18 of request 5. Nothing here changes a figure. }
unit complexmarks;

{$mode objfpc}{$H+}{$R+}{$Q+}

interface

uses
  sheets, complexes;

{ The marks of a record, each once, parted by one space. The sheet is the one before
  the record. }
function ComplexMarksText(const Sheet: TSheet; const Complex: TComplex;
  const Outcome: TComplexOutcome): string;

{ The marks of a record beside a sheet that is refused by 18. }
function ComplexMarksBeside18(const Sheet: TSheet; const Complex: TComplex): string;

implementation

uses
  refusals, controlhours, marks, daymarks;

const
  RecordFaultNames: array[TRecordFault] of string = ('short', 'length', 'days', 'consumer');
  PowerKindNames: array[TPowerKind] of string = ('imported', 'drawn', 'sent');

{ ---------------------------------------------------------------- number 16 }

procedure AddMarksOf16(var Line: string; const Outcome: TComplexOutcome);
var
  Fault: TRecordFault;
begin
  for Fault := Low(TRecordFault) to High(TRecordFault) do
    if Outcome.RecordFaults = [Fault] then AddMark(Line, '16' + RecordFaultNames[Fault]);
  if Outcome.TooHigh <> [] then AddMark(Line, '16with17');
end;

{ ---------------------------------------------------------------- number 17 }

function Larger(A, B: Int64): Int64;
begin
  if A > B then Result := A else Result := B;
end;

{ The greater of the two powers of an hour. }
function GreatestInHour(const Complex: TComplex; Hour: Integer): Int64;
begin
  Result := Larger(Complex.Drawn[Hour], Complex.Sent[Hour]);
end;

function GreatestPower(const Complex: TComplex): Int64;
var
  Hour: Integer;
begin
  Result := Complex.Imported;
  for Hour := 0 to High(Complex.Drawn) do
    Result := Larger(Result, GreatestInHour(Complex, Hour));
end;

procedure AddPlaceMarks(var Line: string; const Header: THeader; const Complex: TComplex);
var
  Control: TCountedHours;
  Hour: Integer;
begin
  Control := ControlHoursOf(Header);
  for Hour := 0 to High(Complex.Drawn) do
    if GreatestInHour(Complex, Hour) > TopCapacity then
    begin
      if Control[Hour] then AddMark(Line, '17control') else AddMark(Line, '17outside');
      if Hour = 0 then AddMark(Line, '17first');
      if Hour = High(Complex.Drawn) then AddMark(Line, '17last');
    end;
end;

procedure AddMarksOf17(var Line: string; const Header: THeader; const Complex: TComplex;
  const Outcome: TComplexOutcome);
var
  Kind: TPowerKind;
begin
  for Kind := Low(TPowerKind) to High(TPowerKind) do
    if Outcome.TooHigh = [Kind] then AddMark(Line, '17' + PowerKindNames[Kind]);
  AddPlaceMarks(Line, Header, Complex);
  if GreatestPower(Complex) = TopCapacity + 1 then AddMark(Line, '17oneabove');
end;

{ ------------------------------------------------- done: sent out and average }

{ Drawn and sent in the control hours, one hour at a time. }
procedure AddSentMarks(var Line: string; const Header: THeader; const Complex: TComplex);
var
  Control: TCountedHours;
  Hour: Integer;
begin
  Control := ControlHoursOf(Header);
  for Hour := 0 to High(Complex.Drawn) do
    if Control[Hour] then
    begin
      if Complex.Sent[Hour] > Complex.Drawn[Hour] then
        AddMark(Line, 'sentabove')
      else if Complex.Sent[Hour] > 0 then
      begin
        if Complex.Sent[Hour] = Complex.Drawn[Hour] then
          AddMark(Line, 'sentequal')
        else
          AddMark(Line, 'sentbelow');
      end;
    end;
end;

{ The average if only the sum were stopped at 0, and not each hour. }
function AverageOfSignedSum(const Header: THeader; const Complex: TComplex): TAverage;
var
  Control: TCountedHours;
  AllDrawn, AllSent: TAverage;
begin
  Control := ControlHoursOf(Header);
  AllDrawn := AverageOver(Control, Complex.Drawn, toTenth);
  AllSent := AverageOver(Control, Complex.Sent, toTenth);
  Result := AverageOf(LessNotBelowNought(AllDrawn.Sum, AllSent.Sum), AllDrawn.Hours,
    toTenth);
end;

procedure AddRoundingMark(var Line: string; const Average: TAverage);
begin
  with Average do
    if ExactHalf then
      AddMark(Line, 'half')
    else if Figure * Hours < Sum then
      AddMark(Line, 'rounddown')
    else if Figure * Hours > Sum then
      AddMark(Line, 'roundup')
    else
      AddMark(Line, 'exact');
end;

{ --------------------------------------------- done: imported power and peak }

procedure AddImportedMarks(var Line: string; Imported: Int64; const Average: TAverage);
begin
  if Imported = 0 then
    AddMark(Line, 'imported0')
  else if Imported < Average.Figure then
    AddMark(Line, 'importedbelow')
  else if Average.Figure > 0 then
  begin
    if Imported = Average.Figure then
      AddMark(Line, 'importedequal')
    else
      AddMark(Line, 'importedabove');
  end;
  if Average.ExactHalf and (Average.Figure = Imported + 1) then
    AddMark(Line, 'halfimported');
end;

procedure AddPeakMarks(var Line: string; Before, Peak: Int64);
begin
  if Peak = 0 then AddMark(Line, 'peak0');
  if Peak = TopCapacity then AddMark(Line, 'peaktop');
  if Peak = 1 then AddMark(Line, 'peakone');
  if Peak > Before then
    AddMark(Line, 'raised')
  else if Peak < Before then
    AddMark(Line, 'lowered')
  else
    AddMark(Line, 'kept');
end;

{ ------------------------------------------------ done: consumer and month }

procedure AddConsumerMarks(var Line: string; Consumer, ConsumerCount: Integer);
begin
  if ConsumerCount = 1 then
    AddMark(Line, 'onlyconsumer')
  else if Consumer = 0 then
    AddMark(Line, 'firstconsumer')
  else if Consumer = ConsumerCount - 1 then
    AddMark(Line, 'lastconsumer');
end;

procedure AddMonthMarks(var Line: string; const Header: THeader);
var
  Day: Integer;
begin
  AddMark(Line, 'days' + NumberText(Header.Days));
  for Day := 1 to Header.Days do
    if IsHoliday(Header, Day) and not IsWeekend(Header, Day) then AddMark(Line, 'holiday');
end;

{ ---------------------------------------------- done: slips that would show }

{ One more hour of each control day. }
function ControlHoursAnd(const Header: THeader; Hour: Integer): TCountedHours;
var
  Day: Integer;
begin
  Result := ControlHoursOf(Header);
  for Day := 1 to Header.Days do
    if IsControlDay(Header, Day) then CountHours(Result, Day, Hour, Hour);
end;

{ Every Saturday and Sunday too, be it a holiday or not. }
function ControlHoursAndWeekends(const Header: THeader): TCountedHours;
var
  Day: Integer;
begin
  Result := ControlHoursOf(Header);
  for Day := 1 to Header.Days do
    if IsWeekend(Header, Day) then
      CountHours(Result, Day, FirstControlHour, LastControlHour);
end;

procedure AddSlipMarks(var Line: string; const Header: THeader; const Complex: TComplex;
  Peak: Int64);

  function PeakDiffers(const Counted: TCountedHours; const Powers: TPowers): Boolean;
  begin
    Result := PeakFrom(AverageOver(Counted, Powers, toTenth), Complex.Imported) <> Peak;
  end;

var
  Net, Exchanged: TPowers;
begin
  Net := NetPowers(Complex.Drawn, Complex.Sent);
  Exchanged := NetPowers(Complex.Sent, Complex.Drawn);
  if PeakDiffers(ControlHoursAnd(Header, 16), Net) then AddMark(Line, 'hour16');
  if PeakDiffers(ControlHoursAnd(Header, 23), Net) then AddMark(Line, 'hour23');
  if PeakDiffers(ControlHoursAndWeekends(Header), Net) then AddMark(Line, 'weekend');
  if PeakDiffers(ControlHoursOf(Header), Exchanged) then AddMark(Line, 'swapped');
end;

{ ---------------------------------------------------------------- the line }

procedure AddMarksOfDone(var Line: string; const Sheet: TSheet; const Complex: TComplex;
  const Outcome: TComplexOutcome);
begin
  if Outcome.Average.Hours = 0 then AddMark(Line, 'nocontrol');
  AddSentMarks(Line, Sheet.Header, Complex);
  if AverageOfSignedSum(Sheet.Header, Complex).Figure <> Outcome.Average.Figure then
    AddMark(Line, 'clamped');
  AddRoundingMark(Line, Outcome.Average);
  AddImportedMarks(Line, Complex.Imported, Outcome.Average);
  AddPeakMarks(Line, Sheet.Consumers[Complex.Consumer].Peak, Outcome.Peak);
  AddConsumerMarks(Line, Complex.Consumer, Sheet.Header.ConsumerCount);
  AddMonthMarks(Line, Sheet.Header);
  AddSlipMarks(Line, Sheet.Header, Complex, Outcome.Peak);
end;

function ComplexMarksText(const Sheet: TSheet; const Complex: TComplex;
  const Outcome: TComplexOutcome): string;
begin
  if Outcome.Refusal = NotRefused then
    Result := 'done'
  else
    Result := RefusalMark(Outcome.Refusal);
  case Outcome.Refusal of
    16: AddMarksOf16(Result, Outcome);
    17: AddMarksOf17(Result, Sheet.Header, Complex, Outcome);
    NotRefused:
      begin
        AddMarksOfDone(Result, Sheet, Complex, Outcome);
        AddLaterVersionMark(Result, Sheet.Header);
      end;
  end;
end;

function ComplexMarksBeside18(const Sheet: TSheet; const Complex: TComplex): string;
begin
  Result := RefusalMark(18);
  if FaultsOfRecord(Sheet.Header, Complex) <> [] then AddMark(Result, '18with16');
end;

end.
