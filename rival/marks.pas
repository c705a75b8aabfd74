{ Marks: which corners of the paper a sheet reaches, for a caller who counts how
  well a set of sheets covers them. Nothing here changes a figure. }
unit marks;

{$mode objfpc}{$H+}{$R+}{$Q+}

interface

uses
  sheets, settlements;

{ The marks of an accepted sheet, each once, parted by one space. }
function MarksText(const Sheet: TSheet; const Settlement: TSettlement): string;

{ The mark of a refusal: `N` and the number. }
function RefusalMark(Refusal: Integer): string;

{ Adds a mark to a line that does not have it yet. }
procedure AddMark(var Line: string; const Mark: string);

function NumberText(Value: Int64): string;

implementation

const
  EdgeCount = 8;
  Edges: array[1..EdgeCount] of Int64 = (50, 51, 200, 201, 400, 401, 500, 501);

  TieNames: array[TRoundedFigure] of string = ('average', 'p', 'k1', 'k2', 'k4', 'k5',
    'fraction', 'product', 'days', 'volume', 'payment', 'cvolume', 'charge');

function NumberText(Value: Int64): string;
begin
  Str(Value, Result);
end;

function RefusalMark(Refusal: Integer): string;
begin
  Result := 'N' + NumberText(Refusal);
end;

procedure AddMark(var Line: string; const Mark: string);
begin
  if Pos(' ' + Mark + ' ', ' ' + Line + ' ') > 0 then Exit;
  if Line <> '' then Line := Line + ' ';
  Line := Line + Mark;
end;

procedure AddEdgeMarks(var Line: string; const Prefix: string; P: Int64);
var
  Number: Integer;
begin
  for Number := 1 to EdgeCount do
    if P = Edges[Number] then
      AddMark(Line, Prefix + 'p' + NumberText(P));
end;

procedure AddProducerMarks(var Line: string; const Producer: TProducer;
  const Figures: TProducerFigures);
begin
  with Figures do
  begin
    AddMark(Line, 'k1band' + NumberText(OverUse.Band));
    AddEdgeMarks(Line, 'k1', OverUse.P);
    if AfterCut.T = 0 then
    begin
      if OverUse.N * OverUse.D = 0 then
        AddMark(Line, 'k1zeroT')
      else
        AddMark(Line, 'k1zeroTpos');
    end
    else if PenaltyAgainst(OverUse, AfterCut.T) > 0 then
      AddMark(Line, 'k1floor');
    if Producer.DeductibleCapacity = 0 then
    begin
      if OverUse.D = 0 then
        AddMark(Line, 'k1q0e0')
      else
        AddMark(Line, 'k1q0epos');
    end;
    if ControlHours = 0 then AddMark(Line, 'nocontrol');
    if OverHours.M = 0 then AddMark(Line, 'k4zero');
    { A producer whose rows come to 0 has nothing that could be cut. }
    if BeforeCut.T + BeforeCut.B > 0 then
    begin
      if Excess = 0 then AddMark(Line, 'cutnone');
      if Excess >= BeforeCut.T + BeforeCut.B then AddMark(Line, 'cutall');
    end;
  end;
end;

procedure AddRowMarks(var Line: string; const Row: TRow; const Figures: TRowFigures);
begin
  if (Figures.VolumeAfterCut > 0) and (Figures.VolumeAfterCut < Row.Volume) then
    AddMark(Line, 'cutpart');
end;

procedure AddConsumerMarks(var Line: string; const Consumer: TConsumer;
  const Figures: TConsumerFigures);
begin
  with Figures do
  begin
    AddMark(Line, 'cband' + NumberText(Band));
    AddEdgeMarks(Line, 'c', P);
    if Consumer.ContractVolume = 0 then
    begin
      if CountedPeak = 0 then { the excess is the counted peak here }
        AddMark(Line, 'cq0e0')
      else
        AddMark(Line, 'cq0epos');
    end;
    if Credit > Consumer.Peak then AddMark(Line, 'creditabove');
  end;
end;

procedure AddMonthMarks(var Line: string; const Header: THeader);
begin
  with Header do
  begin
    if (ProducerCount = 0) and (RowCount = 0) and (ConsumerCount = 0) then
      AddMark(Line, 'empty');
    if (ProducerCount = MostProducers) and (RowCount = MostRows)
      and (ConsumerCount = MostConsumers) then
      AddMark(Line, 'full');
    AddMark(Line, 'days' + NumberText(Days));
    AddMark(Line, 'weekday' + NumberText(FirstWeekday));
    if Int64(Holidays) = (Int64(1) shl Days) - 1 then
      AddMark(Line, 'allholidays');
  end;
end;

function MarksText(const Sheet: TSheet; const Settlement: TSettlement): string;
var
  Number: Integer;
  Figure: TRoundedFigure;
begin
  Result := '';
  for Number := 0 to Sheet.Header.ProducerCount - 1 do
    AddProducerMarks(Result, Sheet.Producers[Number], Settlement.Producers[Number]);
  for Number := 0 to Sheet.Header.RowCount - 1 do
    AddRowMarks(Result, Sheet.Rows[Number], Settlement.Rows[Number]);
  for Number := 0 to Sheet.Header.ConsumerCount - 1 do
    AddConsumerMarks(Result, Sheet.Consumers[Number], Settlement.Consumers[Number]);
  for Figure := Low(TRoundedFigure) to High(TRoundedFigure) do
    if Figure in Settlement.Ties then
      AddMark(Result, 'tie_' + TieNames[Figure]);
  AddMonthMarks(Result, Sheet.Header);
end;

end.
