{ Marks of the 2015 text: which corners of request 4 of document 02 a sheet reaches.
  Nothing here changes a figure. }
unit marks2015;

{$mode objfpc}{$H+}{$R+}{$Q+}

interface

uses
  sheets, settlements, texts2015;

{ The marks of an accepted sheet, each once, parted by one space. Settlement is document
  01's, for what the two texts see differently. }
function MarksText2015(const Sheet: TSheet; const Settlement: TSettlement;
  const Figures: TSettlement2015; BufferLength: Int64): string;

{ The marks of a refusal: those of daymarks.pas, and for 7 how near the buffer came. }
function RefusalMarks2015(const Sheet: TSheet; Refusal: Integer;
  BufferLength: Int64): string;

implementation

uses
  exact, refusals, results, marks, daymarks;

const
  { Where a factor ends, in hundredths of a percent. }
  EdgeCount = 3;
  Edges: array[1..EdgeCount] of QWord = (500, 1000, 2000);

  { Tenths: the largest volume there is, of contract 83,329 and peak 100,000 with factor 1.5;
    a larger contract would need a peak past the highest capacity figure for that factor. }
  LargestVolume = 124994;

{ ------------------------------------------------------- excess and factor }

procedure AddEdgeMarks(var Line: string; Edge: QWord; const Excess: TRounded);
var
  EdgeText: string;
begin
  EdgeText := NumberText(Edge);
  if Excess.Figure = Edge then
  begin
    AddMark(Line, 'edge' + EdgeText);
    if Excess.Way = wayDown then AddMark(Line, 'down' + EdgeText);
  end;
  if Excess.Figure = Edge + 1 then
  begin
    AddMark(Line, 'past' + EdgeText);
    { Rounded upward to one past the edge, so it lay between the two. }
    if Excess.Way in [wayHalf, wayUp] then AddMark(Line, 'up' + EdgeText);
    if Excess.Way = wayHalf then AddMark(Line, 'halfexcess' + EdgeText);
  end;
end;

{ A contract volume above 0, so that there is a percent. }
procedure AddExcessMarks(var Line: string; const Consumer: TConsumer; const Excess: TRounded);
var
  Number: Integer;
begin
  for Number := 1 to EdgeCount do
    AddEdgeMarks(Line, Edges[Number], Excess);
  if Consumer.Peak < Consumer.ContractVolume then AddMark(Line, 'below');
  if Consumer.Peak = Consumer.ContractVolume then AddMark(Line, 'equal');
  if Excess.Way = wayHalf then AddMark(Line, 'halfexcess');
end;

{ A contract volume of 0. }
procedure AddContract0Marks(var Line: string; Peak: Int64);
begin
  if Peak = 0 then AddMark(Line, 'contract0peak0');
  if Peak > 0 then AddMark(Line, 'contract0peak');
  if Peak = 1 then AddMark(Line, 'contract0peakone');
end;

{ -------------------------------------------------------- volume and charge }

procedure AddWayMarks(var Line: string; const Name: string; Way: TWayRounded);
begin
  case Way of
    wayHalf: AddMark(Line, 'half' + Name);
    wayDown: AddMark(Line, Name + 'rounddown');
    wayUp: AddMark(Line, Name + 'roundup');
    wayExact: ;
  end;
end;

procedure AddPriceMarks(var Line: string; Price: Int64; Volume: QWord);
begin
  if Volume = LargestVolume then AddMark(Line, 'largest');
  if Volume > 0 then
  begin
    if Price = TopPrice then AddMark(Line, 'priciest');
    if Price = 0 then AddMark(Line, 'zeroprice');
  end;
end;

{ ----------------------------------------------------- against document 01 }

procedure AddOtherTextMarks(var Line: string; const Consumer: TConsumer;
  const Settled: TConsumerFigures; const Figures: TConsumerFigures2015);
begin
  { A credit above 0 has come from a bilateral row of an actual volume above 0. }
  if (Settled.Credit > 0)
    and (FactorOf(Consumer.ContractVolume, Settled.CountedPeak) <> Figures.Factor) then
    AddMark(Line, 'credited');
  if (Consumer.ContractVolume > 0) and ((Consumer.SupplierMiningDays > 0)
    or (Consumer.GridMiningDays > 0) or (Consumer.Z > LowestZ)) then
    AddMark(Line, 'mined');
  if Figures.Volume.Figure = QWord(Settled.ActualVolume) then
    AddMark(Line, 'same')
  else
    AddMark(Line, 'other');
end;

{ ---------------------------------------------------------------- the line }

procedure AddConsumerMarks(var Line: string; const Consumer: TConsumer;
  const Settled: TConsumerFigures; const Figures: TConsumerFigures2015);
begin
  AddMark(Line, 'factor' + NumberText(Figures.Factor));
  if Consumer.ContractVolume > 0 then
    AddExcessMarks(Line, Consumer, Figures.Excess)
  else
    AddContract0Marks(Line, Consumer.Peak);
  AddWayMarks(Line, 'volume', Figures.Volume.Way);
  AddWayMarks(Line, 'charge', Figures.Charge.Way);
  AddPriceMarks(Line, Consumer.Price, Figures.Volume.Figure);
  AddOtherTextMarks(Line, Consumer, Settled, Figures);
end;

procedure AddCountMark(var Line: string; ConsumerCount: Integer);
begin
  if ConsumerCount in [0, 1, MostConsumers] then
    AddMark(Line, 'consumers' + NumberText(ConsumerCount));
end;

{ The buffer of an accepted sheet has room for the result of the 2015 text. }
procedure AddRoomMarks(var Line: string; const Header: THeader; BufferLength: Int64);
begin
  if BufferLength = ResultLength2015(Header) then AddMark(Line, 'roomexact');
  if BufferLength < ResultLength(Header) then AddMark(Line, 'roomless2021');
end;

function MarksText2015(const Sheet: TSheet; const Settlement: TSettlement;
  const Figures: TSettlement2015; BufferLength: Int64): string;
var
  Number: Integer;
begin
  Result := '';
  for Number := 0 to Sheet.Header.ConsumerCount - 1 do
    AddConsumerMarks(Result, Sheet.Consumers[Number], Settlement.Consumers[Number],
      Figures[Number]);
  AddCountMark(Result, Sheet.Header.ConsumerCount);
  AddRoomMarks(Result, Sheet.Header, BufferLength);
  AddLaterVersionMark(Result, Sheet.Header);
end;

function RefusalMarks2015(const Sheet: TSheet; Refusal: Integer;
  BufferLength: Int64): string;
begin
  Result := RefusalMarksText(Sheet, Refusal);
  if (Refusal = 7) and (BufferLength = ResultLength2015(Sheet.Header) - 1) then
    AddMark(Result, '7oneless');
end;

end.
