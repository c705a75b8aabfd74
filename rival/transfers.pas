{ Transfers of contract volume between consumers: request 1 of document 02. A list
  of entries is read, the numbers 13 to 15 are tried over it, and the entries are
  applied in order. A refused list changes nothing.

  Volumes are kept in Int64: a taker has at most 100,000 tenths before its turn,
  and an amount of four bytes on top stays far below the limit. }
unit transfers;

{$mode objfpc}{$H+}{$R+}{$Q+}

interface

uses
  sheets;

const
  ListNumbers = [13..15]; { the refusals of a list }

type
  TEntry = record
    Day: Byte;        { of filing, in the month before }
    Giver: Byte;      { consumer from 0, as is the taker }
    Taker: Byte;
    Amount: LongWord; { tenths of a megawatt }
  end;

  { With fewer than 5 bytes there is no front, and both its fields are 0. }
  TTransferList = record
    BytesHandedOver: Int64;
    LengthField: LongWord;
    Version: Byte;
    Entries: array of TEntry; { the whole entries that the bytes hold }
  end;

  { Each ground of number 13, and of number 15. }
  TListFault = (faultShort, faultLength, faultMultiple, faultVersion,
    faultDayZero, faultDayAbove, faultGiver, faultTaker, faultSame);
  TListFaults = set of TListFault;
  TTurnFault = (faultGiverHasLess, faultTakerAbove);
  TTurnFaults = set of TTurnFault;

  TVolumes = array[0..MostConsumers - 1] of Int64; { contract volumes, tenths }

  TTransferOutcome = record
    Refusal: Integer;        { one of ListNumbers, or NotRefused }
    ListFaults: TListFaults; { the grounds of 13 }
    Applied: Integer;        { entries applied; with 15 the number of the one that fails }
    TurnFaults: TTurnFaults; { the grounds of 15 }
    Volumes: TVolumes;       { after the entries applied }
  end;

procedure ReadTransferList(const Bytes: TByteSequence; out List: TTransferList);

{ The contract volumes as the sheet gives them. }
function VolumesIn(const Sheet: TSheet): TVolumes;

{ The grounds of number 13, for a sheet with so many consumers. }
function FaultsOfList(const List: TTransferList; ConsumerCount: Integer): TListFaults;

{ Filed too late, number 14. }
function FiledLate(const Entry: TEntry): Boolean;

{ What stands against an entry when the volumes are these. }
function FaultsAtTurn(const Entry: TEntry; const Volumes: TVolumes): TTurnFaults;

{ What the taker comes to. }
function TakerAfter(const Entry: TEntry; const Volumes: TVolumes): Int64;

{ For an entry without a fault at its turn. }
procedure ApplyEntry(const Entry: TEntry; var Volumes: TVolumes);

{ To be called only when the sheet has passed its own numbers. }
procedure ApplyTransfers(const Sheet: TSheet; const List: TTransferList;
  out Outcome: TTransferOutcome);

{ The sheet's bytes afterwards: the same when the list is refused, otherwise with
  the new contract volumes. }
function SheetBytesAfter(const Bytes: TByteSequence; const Header: THeader;
  const Outcome: TTransferOutcome): TByteSequence;

implementation

uses
  refusals, results;

const
  ListFrontWidth = 5; { length and version }
  EntryWidth = 7;
  ListVersion = 1;
  LastDayToFile = 20;

{ ---------------------------------------------------------------- reading }

procedure ReadEntry(const Bytes: TByteSequence; var Place: Integer; out Entry: TEntry);
begin
  Entry.Day := NextOne(Bytes, Place);
  Entry.Giver := NextOne(Bytes, Place);
  Entry.Taker := NextOne(Bytes, Place);
  Entry.Amount := NextFour(Bytes, Place);
end;

procedure ReadTransferList(const Bytes: TByteSequence; out List: TTransferList);
var
  Place, Number: Integer;
begin
  List.BytesHandedOver := Length(Bytes);
  List.LengthField := 0;
  List.Version := 0;
  List.Entries := nil;
  if List.BytesHandedOver < ListFrontWidth then Exit;
  Place := 0;
  List.LengthField := NextFour(Bytes, Place);
  List.Version := NextOne(Bytes, Place);
  SetLength(List.Entries, (List.BytesHandedOver - ListFrontWidth) div EntryWidth);
  for Number := 0 to High(List.Entries) do
    ReadEntry(Bytes, Place, List.Entries[Number]);
end;

function VolumesIn(const Sheet: TSheet): TVolumes;
var
  Number: Integer;
begin
  for Number := 0 to MostConsumers - 1 do
    if Number < Sheet.Header.ConsumerCount then
      Result[Number] := Sheet.Consumers[Number].ContractVolume
    else
      Result[Number] := 0;
end;

{ ---------------------------------------------------------------- number 13 }

function FaultsOfEntry(const Entry: TEntry; ConsumerCount: Integer): TListFaults;
begin
  Result := [];
  if Entry.Day = 0 then Include(Result, faultDayZero);
  if Entry.Day > MostDays then Include(Result, faultDayAbove);
  if Entry.Giver >= ConsumerCount then Include(Result, faultGiver);
  if Entry.Taker >= ConsumerCount then Include(Result, faultTaker);
  if Entry.Giver = Entry.Taker then Include(Result, faultSame);
end;

function FaultsOfFront(const List: TTransferList): TListFaults;
begin
  Result := [];
  if List.LengthField <> List.BytesHandedOver then Include(Result, faultLength);
  if (Int64(List.LengthField) - ListFrontWidth) mod EntryWidth <> 0 then
    Include(Result, faultMultiple);
  if List.Version <> ListVersion then Include(Result, faultVersion);
end;

function FaultsOfList(const List: TTransferList; ConsumerCount: Integer): TListFaults;
var
  Number: Integer;
begin
  if List.BytesHandedOver < ListFrontWidth then Exit([faultShort]);
  Result := FaultsOfFront(List);
  for Number := 0 to High(List.Entries) do
    Result := Result + FaultsOfEntry(List.Entries[Number], ConsumerCount);
end;

{ ---------------------------------------------------------------- number 14 }

function FiledLate(const Entry: TEntry): Boolean;
begin
  Result := Entry.Day > LastDayToFile;
end;

function SomeFiledLate(const List: TTransferList): Boolean;
var
  Number: Integer;
begin
  for Number := 0 to High(List.Entries) do
    if FiledLate(List.Entries[Number]) then Exit(True);
  Result := False;
end;

{ ---------------------------------------------------- number 15 and the turns }

function TakerAfter(const Entry: TEntry; const Volumes: TVolumes): Int64;
begin
  Result := Volumes[Entry.Taker] + Entry.Amount;
end;

function FaultsAtTurn(const Entry: TEntry; const Volumes: TVolumes): TTurnFaults;
begin
  Result := [];
  if Entry.Amount > Volumes[Entry.Giver] then Include(Result, faultGiverHasLess);
  if TakerAfter(Entry, Volumes) > TopCapacity then Include(Result, faultTakerAbove);
end;

procedure ApplyEntry(const Entry: TEntry; var Volumes: TVolumes);
begin
  Volumes[Entry.Giver] := Volumes[Entry.Giver] - Entry.Amount;
  Volumes[Entry.Taker] := Volumes[Entry.Taker] + Entry.Amount;
end;

{ Applies the entries in order, up to the first that has a fault at its turn. }
procedure TakeTurns(const List: TTransferList; var Outcome: TTransferOutcome);
begin
  while Outcome.Applied < Length(List.Entries) do
  begin
    Outcome.TurnFaults := FaultsAtTurn(List.Entries[Outcome.Applied], Outcome.Volumes);
    if Outcome.TurnFaults <> [] then Exit;
    ApplyEntry(List.Entries[Outcome.Applied], Outcome.Volumes);
    Outcome.Applied := Outcome.Applied + 1;
  end;
end;

{ ---------------------------------------------------------------- the whole }

procedure ApplyTransfers(const Sheet: TSheet; const List: TTransferList;
  out Outcome: TTransferOutcome);
begin
  Outcome.Refusal := NotRefused;
  Outcome.ListFaults := FaultsOfList(List, Sheet.Header.ConsumerCount);
  Outcome.Applied := 0;
  Outcome.TurnFaults := [];
  Outcome.Volumes := VolumesIn(Sheet);
  if Outcome.ListFaults <> [] then
    Outcome.Refusal := 13
  else if SomeFiledLate(List) then
    Outcome.Refusal := 14
  else
  begin
    TakeTurns(List, Outcome);
    if Outcome.TurnFaults <> [] then Outcome.Refusal := 15;
  end;
end;

function SheetBytesAfter(const Bytes: TByteSequence; const Header: THeader;
  const Outcome: TTransferOutcome): TByteSequence;
var
  Number, Place: Integer;
begin
  Result := Copy(Bytes);
  if Outcome.Refusal <> NotRefused then Exit;
  for Number := 0 to Header.ConsumerCount - 1 do
  begin
    Place := ConsumerPlace(Header, Number); { the contract volume stands first }
    Put(Result, Place, 4, Outcome.Volumes[Number]);
  end;
end;

end.
