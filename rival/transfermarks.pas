{ Marks of transfers: which corners of request 1 of document 02 a list reaches on an
  accepted sheet, or beside one refused by 18 of request 5. Nothing here changes a figure. }
unit transfermarks;

{$mode objfpc}{$H+}{$R+}{$Q+}

interface

uses
  sheets, transfers;

{ The marks of a list, each once, parted by one space. The sheet is the one before
  the list. }
function TransferMarksText(const Sheet: TSheet; const List: TTransferList;
  const Outcome: TTransferOutcome): string;

{ The marks of a list beside a sheet that is refused by 18. }
function TransferMarksBeside18(const Sheet: TSheet; const List: TTransferList): string;

implementation

uses
  refusals, marks, daymarks;

const
  ListFaultNames: array[TListFault] of string = ('short', 'length', 'multiple', 'version',
    'day0', 'dayabove', 'giver', 'taker', 'same');
  TurnFaultNames: array[TTurnFault] of string = ('giver', 'taker');

function SomeFiledOn(const List: TTransferList; Day: Integer): Boolean;
var
  Number: Integer;
begin
  for Number := 0 to High(List.Entries) do
    if List.Entries[Number].Day = Day then Exit(True);
  Result := False;
end;

{ ---------------------------------------------------------------- refused }

procedure AddMarksOf13(var Line: string; const List: TTransferList; Faults: TListFaults);
var
  Fault: TListFault;
  Number: Integer;
begin
  for Fault := Low(TListFault) to High(TListFault) do
    if Faults = [Fault] then AddMark(Line, '13' + ListFaultNames[Fault]);
  for Number := 0 to High(List.Entries) do
    if FiledLate(List.Entries[Number]) and (List.Entries[Number].Day <= MostDays) then
      AddMark(Line, '13with14');
end;

procedure AddMarksOf14(var Line: string; const List: TTransferList);
begin
  if SomeFiledOn(List, 21) then AddMark(Line, 'day21');
  if SomeFiledOn(List, 31) then AddMark(Line, 'day31');
end;

procedure AddMarksOf15(var Line: string; const Failing: TEntry; const Before: TVolumes;
  const Outcome: TTransferOutcome);
var
  Fault: TTurnFault;
begin
  for Fault := Low(TTurnFault) to High(TTurnFault) do
    if Outcome.TurnFaults = [Fault] then AddMark(Line, '15' + TurnFaultNames[Fault]);
  if FaultsAtTurn(Failing, Before) = [] then AddMark(Line, '15turn');
  if Outcome.Applied = 0 then AddMark(Line, '15first');
  if (Outcome.TurnFaults = [faultTakerAbove])
    and (TakerAfter(Failing, Outcome.Volumes) = TopCapacity + 1) then
    AddMark(Line, '15oneabove');
end;

{ ---------------------------------------------------------------- done }

procedure AddCountMark(var Line: string; EntryCount: Integer);
begin
  case EntryCount of
    0: AddMark(Line, 'entries0');
    1: AddMark(Line, 'entries1');
  else
    AddMark(Line, 'entriesmany');
  end;
end;

{ Amounts and volumes, entry by entry. }
procedure AddTurnMarks(var Line: string; const List: TTransferList; const Before: TVolumes);
var
  Number: Integer;
  Volumes: TVolumes;
begin
  Volumes := Before;
  for Number := 0 to High(List.Entries) do
    with List.Entries[Number] do
    begin
      ApplyEntry(List.Entries[Number], Volumes);
      if Amount = 0 then AddMark(Line, 'amount0');
      if (Amount > 0) and (Volumes[Taker] = TopCapacity) then AddMark(Line, 'takerfull');
      if (Amount > 0) and (Volumes[Giver] = 0) then AddMark(Line, 'giverempty');
      if Amount > Before[Giver] then AddMark(Line, 'chain');
    end;
end;

{ The same giver with the same taker; the way back is another pair. }
function SomePairRepeated(const List: TTransferList): Boolean;
var
  Seen: array[0..MostConsumers - 1, 0..MostConsumers - 1] of Boolean;
  Number: Integer;
begin
  FillChar(Seen, SizeOf(Seen), 0);
  for Number := 0 to High(List.Entries) do
    with List.Entries[Number] do
    begin
      if Seen[Giver, Taker] then Exit(True);
      Seen[Giver, Taker] := True;
    end;
  Result := False;
end;

procedure AddMarksOfDone(var Line: string; const List: TTransferList; const Before: TVolumes);
begin
  AddCountMark(Line, Length(List.Entries));
  if SomeFiledOn(List, 20) then AddMark(Line, 'day20');
  if SomeFiledOn(List, 1) then AddMark(Line, 'day1');
  AddTurnMarks(Line, List, Before);
  if SomePairRepeated(List) then AddMark(Line, 'repeated');
end;

{ ---------------------------------------------------------------- the line }

function TransferMarksText(const Sheet: TSheet; const List: TTransferList;
  const Outcome: TTransferOutcome): string;
begin
  if Outcome.Refusal = NotRefused then
    Result := 'done'
  else
    Result := RefusalMark(Outcome.Refusal);
  case Outcome.Refusal of
    13: AddMarksOf13(Result, List, Outcome.ListFaults);
    14: AddMarksOf14(Result, List);
    15: AddMarksOf15(Result, List.Entries[Outcome.Applied], VolumesIn(Sheet), Outcome);
    NotRefused:
      begin
        AddMarksOfDone(Result, List, VolumesIn(Sheet));
        AddLaterVersionMark(Result, Sheet.Header);
      end;
  end;
end;

function TransferMarksBeside18(const Sheet: TSheet; const List: TTransferList): string;
begin
  Result := RefusalMark(18);
  if FaultsOfList(List, Sheet.Header.ConsumerCount) <> [] then AddMark(Result, '18with13');
end;

end.
