{ Marks of contracts that begin inside a month: which corners of request 5 of document 02
  a sheet reaches. Nothing here changes a figure.

  Figures are kept in Int64: a product is at most 10,000,000,000 millionths and a month
  has at most 31 days, so no product of the two passes 310,000,000,000. }
unit daymarks;

{$mode objfpc}{$H+}{$R+}{$Q+}

interface

uses
  sheets, settlements;

{ Adds the marks of an accepted sheet to its line. }
procedure AddDayMarks(var Line: string; const Sheet: TSheet; const Settlement: TSettlement);

{ The marks of a refused sheet: `N` and the number, and what request 5 has to do with it. }
function RefusalMarksText(const Sheet: TSheet; Refusal: Integer): string;

{ `version2` or `version3` for a sheet of that version, where version 1 has no mark. }
procedure AddLaterVersionMark(var Line: string; const Header: THeader);

implementation

uses
  exact, refusals, marks;

{ ---------------------------------------------------------------- version }

procedure AddVersionMark(var Line: string; const Header: THeader);
begin
  AddMark(Line, 'version' + NumberText(Header.Version));
end;

procedure AddLaterVersionMark(var Line: string; const Header: THeader);
begin
  if Header.Version > VersionOfMonths then AddVersionMark(Line, Header);
end;

{ ------------------------------------------------------- accepted: the days }

procedure AddCoverMarks(var Line: string; const Row: TRow; DaysInMonth: Integer);
var
  FromStart, ToEnd: Boolean;
begin
  FromStart := Row.FirstDay = 1;
  ToEnd := Row.LastDay = DaysInMonth;
  if FromStart and ToEnd then AddMark(Line, 'coversall');
  if DaysCovered(Row) < DaysInMonth then AddMark(Line, 'coverspart');
  if DaysCovered(Row) = 1 then AddMark(Line, 'coversone');
  if not FromStart and ToEnd then AddMark(Line, 'beginsinside');
  if FromStart and not ToEnd then AddMark(Line, 'endsinside');
  if not FromStart and not ToEnd then AddMark(Line, 'bothinside');
  if FromStart and (Row.LastDay = 1) then AddMark(Line, 'firstdayonly');
  if ToEnd and (Row.FirstDay = DaysInMonth) then AddMark(Line, 'lastdayonly');
end;

{ How the product for the days covered came to its millionth. A half has its mark,
  `tie_days`, from the ties of the settlement. }
procedure AddRoundingMark(var Line: string; const Row: TRow; DaysInMonth: Integer;
  const Figures: TRowFigures);
var
  Sought, Found: Int64; { both in millionths, times the days of the month }
begin
  if DaysCovered(Row) = DaysInMonth then Exit;
  Sought := Figures.Products[10] * DaysCovered(Row);
  Found := Figures.ForDaysCovered * DaysInMonth;
  if 2 * (Found - Sought) = DaysInMonth then Exit;
  if Found < Sought then
    AddMark(Line, 'daysdown')
  else if Found > Sought then
    AddMark(Line, 'daysup')
  else
    AddMark(Line, 'daysexact');
end;

{ ------------------------------------------------ accepted: slips in a row }

function Rounded(const Value: TFraction): Int64;
var
  ExactHalf: Boolean;
begin
  Result := RoundedHalfUp(Value, ExactHalf);
end;

function InTenths(Millionths: Int64): Int64;
begin
  Result := Rounded(Whole(Millionths) / Whole(MillionthsInTenth));
end;

{ What the coefficients leave of a volume in millionths. }
function ThroughAll(const Producer: TProducerFigures; Volume: Int64): Int64;
var
  Products: TCoefficients;
  Ties: TTies;
begin
  Products := Default(TCoefficients);
  Ties := [];
  TakeProducts(Producer, Volume, Products, Ties);
  Result := Products[10];
end;

procedure AddSlipMarks(var Line: string; const Row: TRow; const Producer: TProducerFigures;
  DaysInMonth: Integer; const Figures: TRowFigures);
var
  Share, OneFewer: TFraction;

  procedure Compare(const Mark: string; ActualVolume: Int64);
  begin
    if ActualVolume <> Figures.ActualVolume then AddMark(Line, Mark);
  end;

begin
  Share := Part(DaysCovered(Row), DaysInMonth);
  OneFewer := Part(DaysCovered(Row) - 1, DaysInMonth);
  with Figures do
  begin
    Compare('daysbefore', InTenths(ThroughAll(Producer,
      Rounded(Whole(VolumeAfterCut * MillionthsInTenth) * Share))));
    Compare('daysbeforek10', InTenths(Rounded(
      Whole(Rounded(Whole(Products[9]) * Share)) * Part(Producer.K[10], Million))));
    Compare('daysaftertenth', Rounded(Whole(InTenths(Products[10])) * Share));
    Compare('daysunrounded',
      Rounded(Whole(Products[10]) * Share / Whole(MillionthsInTenth)));
    Compare('daysonefewer', InTenths(Rounded(Whole(Products[10]) * OneFewer)));
  end;
end;

{ ----------------------------------- accepted: slips in the cut, in T and S }

{ Each row's volume for the days covered in place of the full one. }
function OfDays(const Sheet: TSheet; const Volumes: TVolumes): TVolumes;
var
  Number: Integer;
begin
  Result := Volumes;
  for Number := 0 to Sheet.Header.RowCount - 1 do
    Result[Number] := Rounded(Whole(Volumes[Number])
      * Part(DaysCovered(Sheet.Rows[Number]), Sheet.Header.Days));
end;

{ The excess comes from the sums before the cut, k1 and k4 from those after the cut as it
  is. }
procedure AddSumMarks(var Line: string; const Sheet: TSheet; const Settlement: TSettlement);
var
  Before, After: TVolumes;
  Sums: TSums;
  Other: TSettlement;
  Number: Integer;
begin
  Before := OfDays(Sheet, VolumesBeforeCut(Sheet));
  After := OfDays(Sheet, VolumesAfterCut(Sheet, Settlement));
  Other := Settlement;
  for Number := 0 to Sheet.Header.ProducerCount - 1 do
  begin
    Sums := SumsOf(Sheet, Number, After);
    TakeK1AndK4(Sheet, Number, Sums.T, Sums.S, Other);
    if Other.Producers[Number].K[1] <> Settlement.Producers[Number].K[1] then
      AddMark(Line, 'tofdays');
    if Other.Producers[Number].K[4] <> Settlement.Producers[Number].K[4] then
      AddMark(Line, 'sofdays');
    { The excess is another, but it is the full volumes that the rows give up. }
    CutRows(Sheet, Number, ExcessOf(Sheet.Producers[Number],
      SumsOf(Sheet, Number, Before).S), Other);
  end;
  for Number := 0 to Sheet.Header.RowCount - 1 do
    if Other.Rows[Number].VolumeAfterCut <> Settlement.Rows[Number].VolumeAfterCut then
      AddMark(Line, 'cutofdays');
end;

procedure AddDayMarks(var Line: string; const Sheet: TSheet; const Settlement: TSettlement);
var
  Number: Integer;
begin
  AddVersionMark(Line, Sheet.Header);
  if not RowsStateDays(Sheet.Header) then Exit;
  for Number := 0 to Sheet.Header.RowCount - 1 do
    if Settlement.Rows[Number].VolumeAfterCut > 0 then
    begin
      AddCoverMarks(Line, Sheet.Rows[Number], Sheet.Header.Days);
      AddRoundingMark(Line, Sheet.Rows[Number], Sheet.Header.Days, Settlement.Rows[Number]);
      AddSlipMarks(Line, Sheet.Rows[Number],
        Settlement.Producers[Sheet.Rows[Number].Producer], Sheet.Header.Days,
        Settlement.Rows[Number]);
    end;
  AddSumMarks(Line, Sheet, Settlement);
end;

{ -------------------------------------------------------- refused: 3 and 6 }

procedure AddMarksOf3(var Line: string; Version: Integer);
const
  FirstPast = VersionOfColumns + 1;
begin
  if Version = 0 then AddMark(Line, '3version0');
  if Version = FirstPast then AddMark(Line, '3version' + NumberText(FirstPast));
  if Version > FirstPast then AddMark(Line, '3versionabove');
end;

function LengthUnder(Version: Byte; Header: THeader): Int64;
begin
  Header.Version := Version;
  Result := LengthAskedFor(Header);
end;

{ A length that would be right with rows of the other width. }
procedure AddMarksOf6(var Line: string; const Header: THeader);
begin
  if Header.RowCount = 0 then Exit;
  if RowsStateDays(Header) then
  begin
    if Header.SheetLength = LengthUnder(VersionOfMonths, Header) then
      AddMark(Line, '6rows10');
  end
  else if Header.SheetLength = LengthUnder(VersionOfDays, Header) then
    AddMark(Line, '6rows12');
end;

{ ------------------------------------------------------------- refused: 18 }

type
  TDayFault = (faultFirst0, faultLastBefore, faultLastAfter, faultOther);
  TDayFaults = set of TDayFault;

const
  DayFaultNames: array[faultFirst0..faultLastAfter] of string =
    ('first0', 'lastbefore', 'lastafter');

{ For a row whose days are wrong. The other day is one of the month, save where the last
  is before the first and so may be 0; what is wrong in some further way is the other
  fault, which has no mark. }
function FaultOf(const Row: TRow; DaysInMonth: Integer): TDayFault;
var
  FirstWithin, LastWithin: Boolean;
begin
  FirstWithin := (Row.FirstDay >= 1) and (Row.FirstDay <= DaysInMonth);
  LastWithin := (Row.LastDay >= 1) and (Row.LastDay <= DaysInMonth);
  if (Row.FirstDay = 0) and LastWithin then
    Result := faultFirst0
  else if FirstWithin and (Row.LastDay < Row.FirstDay) then
    Result := faultLastBefore
  else if FirstWithin and (Row.LastDay > DaysInMonth) then
    Result := faultLastAfter
  else
    Result := faultOther;
end;

procedure AddMarksOf18(var Line: string; const Sheet: TSheet);
var
  Number, WrongRows, LastWrong, LastRow: Integer;
  Faults: TDayFaults;
  Fault: TDayFault;
begin
  WrongRows := 0;
  LastWrong := 0;
  LastRow := Sheet.Header.RowCount - 1;
  Faults := [];
  for Number := 0 to LastRow do
    if DaysAreWrong(Sheet.Rows[Number], Sheet.Header.Days) then
    begin
      WrongRows := WrongRows + 1;
      LastWrong := Number;
      Include(Faults, FaultOf(Sheet.Rows[Number], Sheet.Header.Days));
    end;
  for Fault := Low(DayFaultNames) to High(DayFaultNames) do
    if Faults = [Fault] then AddMark(Line, '18' + DayFaultNames[Fault]);
  if (WrongRows = 1) and (LastRow > 0) then
  begin
    if LastWrong = 0 then AddMark(Line, '18firstrow');
    if LastWrong = LastRow then AddMark(Line, '18lastrow');
  end;
end;

{ ------------------------------------------------------- refused: the line }

{ Up to 6 only the header of the sheet is read. }
function RefusalMarksText(const Sheet: TSheet; Refusal: Integer): string;
begin
  Result := RefusalMark(Refusal);
  case Refusal of
    3: AddMarksOf3(Result, Sheet.Header.Version);
    6: AddMarksOf6(Result, Sheet.Header);
    8..12: if SomeDaysAreWrong(Sheet) then AddMark(Result, 'with18');
    18: AddMarksOf18(Result, Sheet);
  end;
end;

end.
