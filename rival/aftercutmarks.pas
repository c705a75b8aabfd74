{ Marks of the summed capacity after the cut: which corners of request 8 of document 02 a
  sheet reaches. Nothing here changes a figure.

  A slip changes the producers' figures, the rows and consumers are settled by these, and
  the result's bytes are compared. Of a producer with a single row the sums tell all of
  that row: its volume is T or B, by its kind, and the other of the two is 0. }
unit aftercutmarks;

{$mode objfpc}{$H+}{$R+}{$Q+}

interface

uses
  sheets, settlements;

{ Adds the marks of an accepted sheet to its line. }
procedure AddAfterCutMarks(var Line: string; const Sheet: TSheet;
  const Settlement: TSettlement);

implementation

uses
  exact, results, marks;

{ --------------------------------------------------------- a producer's rows }

{ What the rows alone come to, without the deductible. }
function OfRows(const Sums: TSums): Int64;
begin
  Result := Sums.T + Sums.B;
end;

{ A single row's volume after the cut in millionths. }
function SingleVolume(const Figures: TProducerFigures): Int64;
begin
  Result := OfRows(Figures.AfterCut) * MillionthsInTenth;
end;

{ How many rows of the producer have a volume above 0. }
function RowsAbove0(const Sheet: TSheet; ProducerNumber: Integer;
  const Volumes: TVolumes): Int64;
var
  Number: Integer;
begin
  Result := 0;
  for Number := 0 to Sheet.Header.RowCount - 1 do
    if (Sheet.Rows[Number].Producer = ProducerNumber) and (Volumes[Number] > 0) then
      Result := Result + 1;
end;

function RowsAbove0Before(const Sheet: TSheet; ProducerNumber: Integer): Int64;
begin
  Result := RowsAbove0(Sheet, ProducerNumber, VolumesBeforeCut(Sheet));
end;

function RowsAbove0After(const Sheet: TSheet; ProducerNumber: Integer;
  const Settlement: TSettlement): Int64;
begin
  Result := RowsAbove0(Sheet, ProducerNumber, VolumesAfterCut(Sheet, Settlement));
end;

{ -------------------------------------------------------------- rows and cut }

{ What the cut takes of a producer's rows, if they have anything. }
procedure AddCutMark(var Line: string; const Prefix: string; Before, After: Int64);
begin
  if Before = 0 then Exit;
  if After = Before then
    AddMark(Line, Prefix + 'cut0')
  else if After > 0 then
    AddMark(Line, Prefix + 'cutpart')
  else
    AddMark(Line, Prefix + 'cutall');
end;

procedure AddSingleRowMarks(var Line: string; const Figures: TProducerFigures);
begin
  AddMark(Line, 'onerow');
  AddCutMark(Line, 'one', OfRows(Figures.BeforeCut), OfRows(Figures.AfterCut));
  if Figures.BeforeCut.T > 0 then AddMark(Line, 'onesupport');
  if Figures.BeforeCut.B > 0 then AddMark(Line, 'onebilateral');
end;

{ The rows that were above 0 and those that still are. }
procedure AddManyRowsMarks(var Line: string; const Figures: TProducerFigures;
  AboveBefore, AboveAfter: Int64);
begin
  AddMark(Line, 'manyrows');
  AddCutMark(Line, 'many', OfRows(Figures.BeforeCut), OfRows(Figures.AfterCut));
  if (AboveAfter > 0) and (AboveAfter < AboveBefore) then AddMark(Line, 'rowgone');
  if (Figures.BeforeCut.T > 0) and (Figures.AfterCut.T = 0) and (Figures.AfterCut.B > 0) then
    AddMark(Line, 'rowsupportgone');
  if AboveBefore < Figures.RowCount then
  begin
    AddMark(Line, 'zerorow');
    if AboveBefore = 1 then AddMark(Line, 'zerorowsingle');
  end;
end;

{ --------------------------------------------------------------- coefficients }

{ How the one fraction of a row with some volume left came to its millionth. A half has its
  mark, `tie_fraction`, from the ties of the settlement. }
procedure AddFractionMark(var Line: string; const Figures: TProducerFigures);
begin
  if SingleVolume(Figures) = 0 then Exit;
  case RoundedWithWay(OneFraction(Figures, SingleVolume(Figures))).Way of
    wayDown: AddMark(Line, 'fractiondown');
    wayUp: AddMark(Line, 'fractionup');
    wayExact: AddMark(Line, 'fractionexact');
    wayHalf: ;
  end;
end;

{ n x D against a single row. }
procedure AddPenaltyMarks(var Line: string; const Figures: TProducerFigures);
var
  IsFree: Boolean;
begin
  IsFree := IsNought(NTimesD(Figures.OverUse));
  if Figures.AfterCut.T > 0 then
  begin
    if PenaltyAgainst(Figures.OverUse, Figures.AfterCut.T) >= 0 then
    begin
      AddMark(Line, 'penaltyall');
      if PenaltyAgainst(Figures.OverUse, Figures.BeforeCut.T) < 0 then
        AddMark(Line, 'penaltybycut');
    end
    else if not IsFree then
      AddMark(Line, 'penaltypart');
  end;
  if Figures.AfterCut.B > 0 then
  begin
    if IsFree then
      AddMark(Line, 'onebilateralfree')
    else
      AddMark(Line, 'onebilateralpenalty');
  end;
end;

procedure AddK4Mark(var Line: string; const Producer: TProducer; H: Int64;
  const Figures: TProducerFigures);
begin
  if (Figures.OverHours.M = 0)
    and (SumsOverHours(Producer, H, Figures.BeforeCut.S).M > 0) then
    AddMark(Line, 'k4zerobycut');
end;

procedure AddProducerMarks(var Line: string; const Sheet: TSheet; ProducerNumber: Integer;
  const Settlement: TSettlement);
begin
  case Settlement.Producers[ProducerNumber].RowCount of
    0: AddMark(Line, 'norow');
    1:
      begin
        AddSingleRowMarks(Line, Settlement.Producers[ProducerNumber]);
        AddFractionMark(Line, Settlement.Producers[ProducerNumber]);
        AddPenaltyMarks(Line, Settlement.Producers[ProducerNumber]);
      end;
  else
    AddManyRowsMarks(Line, Settlement.Producers[ProducerNumber],
      RowsAbove0Before(Sheet, ProducerNumber),
      RowsAbove0After(Sheet, ProducerNumber, Settlement));
  end;
  AddK4Mark(Line, Sheet.Producers[ProducerNumber], HoursInMonth(Sheet.Header),
    Settlement.Producers[ProducerNumber]);
end;

{ ---------------------------------------------------- slips that would show }

type
  { Changes the figures of one producer, when all producers' figures are there. }
  TSlip = procedure(const Sheet: TSheet; ProducerNumber: Integer;
    var Settlement: TSettlement);

procedure SlipTBefore(const Sheet: TSheet; ProducerNumber: Integer;
  var Settlement: TSettlement);
begin
  with Settlement.Producers[ProducerNumber] do
    TakeK1AndK4(Sheet, ProducerNumber, BeforeCut.T, AfterCut.S, Settlement);
end;

procedure SlipSBefore(const Sheet: TSheet; ProducerNumber: Integer;
  var Settlement: TSettlement);
begin
  with Settlement.Producers[ProducerNumber] do
    TakeK1AndK4(Sheet, ProducerNumber, AfterCut.T, BeforeCut.S, Settlement);
end;

procedure SlipTAndSBefore(const Sheet: TSheet; ProducerNumber: Integer;
  var Settlement: TSettlement);
begin
  with Settlement.Producers[ProducerNumber] do
    TakeK1AndK4(Sheet, ProducerNumber, BeforeCut.T, BeforeCut.S, Settlement);
end;

procedure SlipRoundedFirst(const Sheet: TSheet; ProducerNumber: Integer;
  var Settlement: TSettlement);
begin
  Settlement.Producers[ProducerNumber].AsOneFraction := False;
end;

{ A k1 with which the exact product of volume and k1 is the rounded one. }
procedure SlipK1First(const Sheet: TSheet; ProducerNumber: Integer;
  var Settlement: TSettlement);
var
  Volume: Int64;
begin
  with Settlement.Producers[ProducerNumber] do
  begin
    Volume := SingleVolume(Settlement.Producers[ProducerNumber]);
    if AsOneFraction and (Volume > 0) then
      ExactK1 := Part(RoundedWithWay(Whole(Volume) * ExactK1).Figure, Volume);
  end;
end;

{ A k4 that has k2 and k3 in it, which then are 1 in their turn. }
procedure SlipK4Last(const Sheet: TSheet; ProducerNumber: Integer;
  var Settlement: TSettlement);
begin
  with Settlement.Producers[ProducerNumber] do
    if AsOneFraction then
    begin
      ExactK4 := ExactK4 * Part(K[2], Million) * Part(K[3], Million);
      K[2] := Million;
      K[3] := Million;
    end;
end;

procedure SlipFractionForMany(const Sheet: TSheet; ProducerNumber: Integer;
  var Settlement: TSettlement);
begin
  Settlement.Producers[ProducerNumber].AsOneFraction := True;
end;

procedure SlipZeroRowUncounted(const Sheet: TSheet; ProducerNumber: Integer;
  var Settlement: TSettlement);
begin
  Settlement.Producers[ProducerNumber].AsOneFraction :=
    RowsAbove0Before(Sheet, ProducerNumber) = 1;
end;

procedure SlipGoneRowUncounted(const Sheet: TSheet; ProducerNumber: Integer;
  var Settlement: TSettlement);
begin
  Settlement.Producers[ProducerNumber].AsOneFraction :=
    RowsAbove0After(Sheet, ProducerNumber, Settlement) = 1;
end;

{ The result if the slip were made with every producer. }
function ResultWith(Slip: TSlip; const Sheet: TSheet): TByteSequence;
var
  Settlement: TSettlement;
  Number: Integer;
begin
  SettleProducers(Sheet, Settlement);
  for Number := 0 to Sheet.Header.ProducerCount - 1 do
    Slip(Sheet, Number, Settlement);
  SettleRowsAndConsumers(Sheet, Settlement);
  Result := ResultBytes(Sheet, Settlement);
end;

procedure AddSlipMarks(var Line: string; const Sheet: TSheet; const Settlement: TSettlement);
var
  RightResult: TByteSequence;

  procedure Compare(const Mark: string; Slip: TSlip);
  begin
    if Differ(ResultWith(Slip, Sheet), RightResult) then AddMark(Line, Mark);
  end;

begin
  RightResult := ResultBytes(Sheet, Settlement);
  Compare('tbefore', @SlipTBefore);
  Compare('sbefore', @SlipSBefore);
  Compare('tsbefore', @SlipTAndSBefore);
  Compare('roundedfirst', @SlipRoundedFirst);
  Compare('k1first', @SlipK1First);
  Compare('k4last', @SlipK4Last);
  Compare('fractionformany', @SlipFractionForMany);
  Compare('zerorowuncounted', @SlipZeroRowUncounted);
  Compare('gonerowuncounted', @SlipGoneRowUncounted);
end;

{ ---------------------------------------------------------------- the line }

procedure AddAfterCutMarks(var Line: string; const Sheet: TSheet;
  const Settlement: TSettlement);
var
  Number: Integer;
begin
  for Number := 0 to Sheet.Header.ProducerCount - 1 do
    AddProducerMarks(Line, Sheet, Number, Settlement);
  AddSlipMarks(Line, Sheet, Settlement);
end;

end.
