{ Marks of outside use to a hundredth: which corners of request 6 of document 02 a sheet
  reaches. Nothing here changes a figure.

  Averages, deductible capacities and D are in hundredths of a megawatt, unless a name
  says tenths. }
unit hundredthmarks;

{$mode objfpc}{$H+}{$R+}{$Q+}

interface

uses
  sheets, settlements;

{ Adds the marks of an accepted sheet to its line. }
procedure AddHundredthMarks(var Line: string; const Sheet: TSheet;
  const Settlement: TSettlement);

implementation

uses
  exact, controlhours, marks;

const
  { Where a band ends, in thousandths. }
  EdgeCount = 4;
  Edges: array[1..EdgeCount] of Int64 = (50, 200, 400, 500);

{ ------------------------------------------- what other figures would give }

{ The ties of figures that no settlement has are of no account. }
function OverUseFrom(Average, Deductible: Int64): TOverUse;
var
  Ties: TTies;
begin
  Ties := [];
  Result := OverUseOf(Average, Deductible, Ties);
end;

{ To a millionth. }
function K1From(const Penalty: TFraction; T: Int64): Int64;
begin
  Result := RoundedWithWay(K1Of(Penalty, T) * Whole(Million)).Figure;
end;

function IsWholeTenths(Hundredths: Int64): Boolean;
begin
  Result := Hundredths mod HundredthsInTenth = 0;
end;

{ The control average rounded to a tenth at once, not by way of its hundredth. }
function AverageByTenths(const Figures: TProducerFigures): Int64;
begin
  Result := HundredthsInTenth
    * AverageOf(Figures.ControlSum, Figures.ControlHours, toTenth).Figure;
end;

{ ------------------------------------------------------- average and edges }

procedure AddAverageMarks(var Line: string; Average: Int64);
begin
  if not IsWholeTenths(Average) then
    AddMark(Line, 'hundredths')
  else if Average > 0 then
    AddMark(Line, 'wholetenths');
end;

{ A mark for each edge that parts two p, First the one that is not above it. }
procedure AddPartedMarks(var Line: string; const Mark: string; First, Second: Int64);
var
  Number: Integer;
begin
  for Number := 1 to EdgeCount do
    if (First <= Edges[Number]) and (Second > Edges[Number]) then
      AddMark(Line, Mark + NumberText(Edges[Number]));
end;

{ The last D of a band and the first of the next. Where D is above 0, an average one
  hundredth away gives the D one hundredth away. }
procedure AddNeighbourMarks(var Line: string; Average, Deductible: Int64;
  const OverUse: TOverUse);
begin
  if IsWholeTenths(OverUse.D) then Exit;
  AddPartedMarks(Line, 'k1last', OverUse.P, OverUseFrom(Average + 1, Deductible).P);
  AddPartedMarks(Line, 'k1next', OverUseFrom(Average - 1, Deductible).P, OverUse.P);
end;

{ Another band than the average rounded to a tenth would have. }
procedure AddMovedMarks(var Line: string; const OverUse, ByTenths: TOverUse);
begin
  AddPartedMarks(Line, 'k1down', OverUse.P, ByTenths.P);
  AddPartedMarks(Line, 'k1up', ByTenths.P, OverUse.P);
end;

procedure AddLeastMarks(var Line: string; DeductibleTenths, D: Int64);
begin
  if D = 1 then AddMark(Line, 'k1d1');
  if (DeductibleTenths = 1) and (D > 0) then AddMark(Line, 'k1deductible1');
end;

{ ---------------------------------------------------- slips that would show }

procedure AddSlipMarks(var Line: string; DeductibleTenths: Int64;
  const Figures: TProducerFigures; const ByTenths: TOverUse);

  procedure Compare(const Mark: string; const Penalty: TFraction);
  begin
    if K1From(Penalty, Figures.AfterCut.T) <> Figures.K[1] then AddMark(Line, Mark);
  end;

var
  Unscaled, BandByTenths: TOverUse;
begin
  Unscaled := OverUseFrom(Figures.ControlAverage, DeductibleTenths);
  BandByTenths := ByTenths;
  BandByTenths.D := Figures.OverUse.D;
  Compare('k1tenth', NTimesD(ByTenths));
  Compare('k1unscaled', NTimesD(Unscaled));
  Compare('k1ptenths', NTimesD(BandByTenths));
  Compare('k1tenthpenalty', NTimesD(Figures.OverUse) / Whole(10));
end;

{ ---------------------------------------------------------------- the line }

procedure AddProducerMarks(var Line: string; DeductibleTenths: Int64;
  const Figures: TProducerFigures);
var
  Deductible: Int64;
  ByTenths: TOverUse;
begin
  Deductible := HundredthsInTenth * DeductibleTenths;
  ByTenths := OverUseFrom(AverageByTenths(Figures), Deductible);
  AddAverageMarks(Line, Figures.ControlAverage);
  if Deductible > 0 then
  begin
    AddNeighbourMarks(Line, Figures.ControlAverage, Deductible, Figures.OverUse);
    AddMovedMarks(Line, Figures.OverUse, ByTenths);
  end;
  AddLeastMarks(Line, DeductibleTenths, Figures.OverUse.D);
  AddSlipMarks(Line, DeductibleTenths, Figures, ByTenths);
end;

procedure AddHundredthMarks(var Line: string; const Sheet: TSheet;
  const Settlement: TSettlement);
var
  Number: Integer;
begin
  for Number := 0 to Sheet.Header.ProducerCount - 1 do
    AddProducerMarks(Line, Sheet.Producers[Number].DeductibleCapacity,
      Settlement.Producers[Number]);
end;

end.
