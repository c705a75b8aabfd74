{ The rival: a second reading of document 01 and of requests 1, 3, 4, 5, 6, 7 and 8 of
  document 02, to compare a proved program with. See README.md for its commands. }
program rival;

{$mode objfpc}{$H+}{$R+}{$Q+}

uses
  SysUtils, sheets, refusals, settlements, results, transfers, complexes, texts2015,
  rearrangements, listings, traces, marks, daymarks, hundredthmarks, columnmarks,
  aftercutmarks, transfermarks, complexmarks, marks2015, bytefiles;

const
  MostBytesListed = 65536;    { section Listing: what is handed over of a longer input }
  DefaultBuffer = 65536;
  LargeEnough = High(Int64);  { a result buffer that never is too short }
  NoLimit = High(Int64);

  KindBytes = 0;
  KindRefusal = 1;
  KindLeftAlone = 2;

  { In place of a refusal's number: the sheet is of version 1, which is not rearranged. }
  LeftAlone = -1;

  StatusTrouble = 1;
  StatusWrongUse = 2;

var
  { One sheet at a time, with its settlement under either text, or with a list of
    transfers or one complex's record and what came of it. }
  Sheet: TSheet;
  Settlement: TSettlement;
  Settlement2015: TSettlement2015;
  BytesOfCase: TByteSequence; { the sheet's, for the marks of hours by column }
  BufferOfCase: Int64; { the result buffer's length, for the marks of the 2015 text }
  List: TTransferList;
  Transferred: TTransferOutcome;
  Complex: TComplex;
  Averaged: TComplexOutcome;

{ Tries the numbers 1 to 6 and, when none applies, reads the sheet into the records. }
function ReadSheet(const Bytes: TByteSequence): Integer;
begin
  ReadHeader(Bytes, Sheet.Header);
  Result := RefusalByHeader(Sheet.Header, Length(Bytes));
  if Result = NotRefused then ReadBody(Bytes, Sheet);
end;

{ Reads the sheet into the records, refuses it or settles it. Gives the refusal's
  number, or NotRefused when the settlement is there. }
function AnswerTo(const Bytes: TByteSequence; BufferLength: Int64): Integer;
begin
  Result := ReadSheet(Bytes);
  if Result <> NotRefused then Exit;
  Result := RefusalByBody(Sheet, BufferLength);
  if Result <> NotRefused then Exit;
  Settle(Sheet, Settlement);
end;

{ The same under the 2015 text. }
function AnswerTo2015(const Bytes: TByteSequence; BufferLength: Int64): Integer;
begin
  Result := ReadSheet(Bytes);
  if Result <> NotRefused then Exit;
  Result := RefusalByBody2015(Sheet, BufferLength);
  if Result <> NotRefused then Exit;
  Settle2015(Sheet, Settlement2015);
end;

{ Rearranges a sheet that gets past number 6, whatever its figures. Gives the refusal's
  number, LeftAlone, or NotRefused and the rearrangement's bytes. }
function Rearrange(const Bytes: TByteSequence; out Answer: TByteSequence): Integer;
begin
  Answer := nil;
  Result := ReadSheet(Bytes);
  if Result <> NotRefused then Exit;
  if not HasRearrangement(Sheet.Header) then Exit(LeftAlone);
  Answer := Rearranged(Bytes, Sheet);
end;

{ The sheet's own numbers where it is to be changed: there is no result buffer, so
  they are 1 to 12 save 7, and 18. }
function RefusalOfSheet(const Bytes: TByteSequence): Integer;
begin
  Result := ReadSheet(Bytes);
  if Result = NotRefused then Result := RefusalByFigures(Sheet);
end;

type
  { Changes a sheet by what a second buffer holds. Gives the refusal's number, or
    NotRefused and the sheet's bytes afterwards. The records of the sheet stay as they
    were before. }
  TChange = function(const Bytes, SecondBytes: TByteSequence;
    out Changed: TByteSequence): Integer;

{ By a list of transfers, with the numbers 13 to 15. }
function ChangeByTransfers(const Bytes, SecondBytes: TByteSequence;
  out Changed: TByteSequence): Integer;
begin
  ReadTransferList(SecondBytes, List); { the marks of 18 look at the list too }
  Result := RefusalOfSheet(Bytes);
  if Result <> NotRefused then Exit;
  ApplyTransfers(Sheet, List, Transferred);
  Changed := SheetBytesAfter(Bytes, Sheet.Header, Transferred);
  Result := Transferred.Refusal;
end;

{ By one complex's record, with the numbers 16 and 17. }
function ChangeByAverage(const Bytes, SecondBytes: TByteSequence;
  out Changed: TByteSequence): Integer;
begin
  ReadComplex(SecondBytes, Complex); { the marks of 18 look at the record too }
  Result := RefusalOfSheet(Bytes);
  if Result <> NotRefused then Exit;
  TakePeak(Sheet.Header, Complex, Averaged);
  Changed := SheetBytesWithPeak(Bytes, Sheet.Header, Complex, Averaged);
  Result := Averaged.Refusal;
end;

function FileBytes(const Name: string; Limit: Int64): TByteSequence;
var
  Source: file;
begin
  OpenForReading(Source, Name);
  Result := ReadUpTo(Source, Limit);
  Close(Source);
end;

function StandardInputBytes(Limit: Int64): TByteSequence;
var
  Source: file;
begin
  OpenStandardInput(Source);
  Result := ReadUpTo(Source, Limit);
end;

{ ---------------------------------------------------------------- one sheet }

procedure ListSheet(const Bytes: TByteSequence);
var
  Refusal: Integer;
begin
  Refusal := AnswerTo(Bytes, LargeEnough);
  if Refusal <> NotRefused then
    WriteRefusal(Output, Refusal)
  else
    WriteListing(Output, Sheet, Settlement);
end;

procedure ListSheet2015(const Bytes: TByteSequence);
var
  Refusal: Integer;
begin
  Refusal := AnswerTo2015(Bytes, LargeEnough);
  if Refusal <> NotRefused then
    WriteRefusal(Output, Refusal)
  else
    WriteListing2015(Output, Sheet, Settlement2015);
end;

procedure TraceSheet(const Bytes: TByteSequence);
var
  Refusal: Integer;
begin
  Refusal := AnswerTo(Bytes, LargeEnough);
  if Refusal <> NotRefused then
    WriteRefusal(Output, Refusal)
  else
    WriteTrace(Output, Sheet, Settlement);
end;

procedure PrintBytes(const Bytes: TByteSequence);
var
  Number: Integer;
begin
  Write('bytes ', Length(Bytes), ' ');
  for Number := 0 to High(Bytes) do
    Write(LowerCase(HexStr(Bytes[Number], 2)));
  WriteLn;
end;

procedure SettleSheet(const Bytes: TByteSequence; BufferLength: Int64);
var
  Refusal: Integer;
begin
  Refusal := AnswerTo(Bytes, BufferLength);
  if Refusal <> NotRefused then
    WriteLn('refusal ', Refusal)
  else
    PrintBytes(ResultBytes(Sheet, Settlement));
end;

procedure SettleSheet2015(const Bytes: TByteSequence; BufferLength: Int64);
var
  Refusal: Integer;
begin
  Refusal := AnswerTo2015(Bytes, BufferLength);
  if Refusal <> NotRefused then
    WriteLn('refusal ', Refusal)
  else
    PrintBytes(ResultBytes2015(Sheet, Settlement2015));
end;

procedure ChangeSheet(Change: TChange; const Bytes, SecondBytes: TByteSequence);
var
  Refusal: Integer;
  Changed: TByteSequence;
begin
  Refusal := Change(Bytes, SecondBytes, Changed);
  if Refusal <> NotRefused then
    WriteLn('refusal ', Refusal)
  else
    PrintBytes(Changed);
end;

procedure RearrangeSheet(const Bytes: TByteSequence);
var
  Refusal: Integer;
  Answer: TByteSequence;
begin
  Refusal := Rearrange(Bytes, Answer);
  case Refusal of
    NotRefused: PrintBytes(Answer);
    LeftAlone: WriteLn('version ', Sheet.Header.Version);
  else
    WriteLn('refusal ', Refusal);
  end;
end;

{ --------------------------------------------------------------- many sheets }

function FourBytes(Value: Int64): TByteSequence;
begin
  Result := nil;
  SetLength(Result, 4);
  Result[0] := Value div 16777216 mod 256;
  Result[1] := Value div 65536 mod 256;
  Result[2] := Value div 256 mod 256;
  Result[3] := Value mod 256;
end;

function FigureAt(const Bytes: TByteSequence; Place: Integer): Int64;
begin
  Result := Int64(Bytes[Place]) * 16777216 + Int64(Bytes[Place + 1]) * 65536
    + Int64(Bytes[Place + 2]) * 256 + Bytes[Place + 3];
end;

{ A part of a case, which must be there whole. }
function PartOfCase(var Source: file; PartLength: Int64): TByteSequence;
begin
  Result := ReadUpTo(Source, PartLength);
  if Length(Result) < PartLength then
    raise EFileTrouble.Create('the last case of the file is not whole');
end;

{ The next case of a file of cases; False at its end. }
function NextCase(var Source: file; out Bytes: TByteSequence; out BufferLength: Int64): Boolean;
var
  Front: TByteSequence;
begin
  Bytes := nil;
  BufferLength := 0;
  Front := ReadUpTo(Source, 8);
  if Length(Front) = 0 then Exit(False);
  if Length(Front) < 8 then
    raise EFileTrouble.Create('the last case of the file is not whole');
  BufferLength := FigureAt(Front, 4);
  Bytes := PartOfCase(Source, FigureAt(Front, 0));
  Result := True;
end;

{ A case with a second buffer, a list or a record: where the other has the result
  buffer's length stands that of the second, and its bytes follow the sheet's. }
function NextCaseOfTwo(var Source: file; out Bytes, SecondBytes: TByteSequence): Boolean;
var
  SecondLength: Int64;
begin
  SecondBytes := nil;
  Result := NextCase(Source, Bytes, SecondLength);
  if Result then SecondBytes := PartOfCase(Source, SecondLength);
end;

procedure WriteAnswer(var Target: file; Kind: Byte; Figure: Int64; const Bytes: TByteSequence);
var
  Front: TByteSequence;
begin
  Front := nil;
  SetLength(Front, 1);
  Front[0] := Kind;
  WriteBytes(Target, Concat(Front, FourBytes(Figure), Bytes));
end;

procedure WriteLine(var Target: file; const Line: string);
var
  Bytes: TByteSequence;
  Number: Integer;
begin
  Bytes := nil;
  SetLength(Bytes, Length(Line) + 1);
  for Number := 1 to Length(Line) do
    Bytes[Number - 1] := Ord(Line[Number]);
  Bytes[Length(Line)] := 10;
  WriteBytes(Target, Bytes);
end;

function MarksOfRefused(Refusal: Integer): string;
begin
  Result := RefusalMarksText(Sheet, Refusal);
  if Refusal = 9 then AddColumnMarksOf9(Result, Sheet);
end;

function SheetMarks(Refusal: Integer): string;
begin
  if Refusal <> NotRefused then Exit(MarksOfRefused(Refusal));
  Result := MarksText(Sheet, Settlement);
  AddDayMarks(Result, Sheet, Settlement);
  AddHundredthMarks(Result, Sheet, Settlement);
  AddColumnMarks(Result, BytesOfCase, Sheet, Settlement);
  AddAfterCutMarks(Result, Sheet, Settlement);
end;

{ Document 01's settlement is taken too, for what the two texts see differently. }
function SheetMarks2015(Refusal: Integer): string;
begin
  if Refusal <> NotRefused then
    Exit(RefusalMarks2015(Sheet, Refusal, BufferOfCase));
  Settle(Sheet, Settlement);
  Result := MarksText2015(Sheet, Settlement, Settlement2015, BufferOfCase);
end;

function TransferMarks(Refusal: Integer): string;
begin
  if Refusal in ListNumbers + [NotRefused] then
    Result := TransferMarksText(Sheet, List, Transferred)
  else if Refusal = 18 then
    Result := TransferMarksBeside18(Sheet, List)
  else
    Result := RefusalMark(Refusal);
end;

function AverageMarks(Refusal: Integer): string;
begin
  if Refusal in RecordNumbers + [NotRefused] then
    Result := ComplexMarksText(Sheet, Complex, Averaged)
  else if Refusal = 18 then
    Result := ComplexMarksBeside18(Sheet, Complex)
  else
    Result := RefusalMark(Refusal);
end;

type
  { Answers the next case: a refusal's number, LeftAlone, or NotRefused and the bytes.
    False at the file's end. }
  TAnswerNext = function(var Source: file; out Refusal: Integer;
    out Answer: TByteSequence): Boolean;
  TMarksOf = function(Refusal: Integer): string;

function SettleNext(var Source: file; out Refusal: Integer; out Answer: TByteSequence): Boolean;
var
  BufferLength: Int64;
begin
  Result := NextCase(Source, BytesOfCase, BufferLength);
  if not Result then Exit;
  Refusal := AnswerTo(BytesOfCase, BufferLength);
  if Refusal = NotRefused then Answer := ResultBytes(Sheet, Settlement);
end;

function Settle2015Next(var Source: file; out Refusal: Integer;
  out Answer: TByteSequence): Boolean;
var
  Bytes: TByteSequence;
begin
  Result := NextCase(Source, Bytes, BufferOfCase);
  if not Result then Exit;
  Refusal := AnswerTo2015(Bytes, BufferOfCase);
  if Refusal = NotRefused then Answer := ResultBytes2015(Sheet, Settlement2015);
end;

{ A result buffer's length stands in the case, but is not looked at. }
function RearrangeNext(var Source: file; out Refusal: Integer;
  out Answer: TByteSequence): Boolean;
var
  Bytes: TByteSequence;
  BufferLength: Int64;
begin
  Result := NextCase(Source, Bytes, BufferLength);
  if Result then Refusal := Rearrange(Bytes, Answer);
end;

function ChangeNext(var Source: file; Change: TChange; out Refusal: Integer;
  out Answer: TByteSequence): Boolean;
var
  Bytes, SecondBytes: TByteSequence;
begin
  Result := NextCaseOfTwo(Source, Bytes, SecondBytes);
  if Result then Refusal := Change(Bytes, SecondBytes, Answer);
end;

function TransferNext(var Source: file; out Refusal: Integer; out Answer: TByteSequence): Boolean;
begin
  Result := ChangeNext(Source, @ChangeByTransfers, Refusal, Answer);
end;

function AverageNext(var Source: file; out Refusal: Integer; out Answer: TByteSequence): Boolean;
begin
  Result := ChangeNext(Source, @ChangeByAverage, Refusal, Answer);
end;

procedure WriteAnswerOf(var Target: file; Refusal: Integer; const Answer: TByteSequence);
begin
  case Refusal of
    NotRefused: WriteAnswer(Target, KindBytes, Length(Answer), Answer);
    LeftAlone: WriteAnswer(Target, KindLeftAlone, 0, nil);
  else
    WriteAnswer(Target, KindRefusal, Refusal, nil);
  end;
end;

{ Writes the answers or, if MarksOf is given, the marks. }
procedure AnswerCases(const InName, OutName: string; AnswerNext: TAnswerNext;
  MarksOf: TMarksOf);
var
  Source, Target: file;
  Refusal: Integer;
  Answer: TByteSequence;
begin
  OpenForReading(Source, InName);
  OpenForWriting(Target, OutName);
  while AnswerNext(Source, Refusal, Answer) do
    if Assigned(MarksOf) then
      WriteLine(Target, MarksOf(Refusal))
    else
      WriteAnswerOf(Target, Refusal, Answer);
  CloseAfterWriting(Target);
  Close(Source);
end;

{ ------------------------------------------------------------------ commands }

procedure WrongUse;
begin
  WriteLn(StdErr, 'usage: rival list [FILE]              the listing of one sheet');
  WriteLn(StdErr, '       rival settle FILE [BUFFER]     the result''s bytes in hex');
  WriteLn(StdErr, '       rival trace FILE               the figures in between');
  WriteLn(StdErr, '       rival batch IN OUT             the results of many sheets');
  WriteLn(StdErr, '       rival marks IN OUT             the corners many sheets reach');
  WriteLn(StdErr, '       rival rearrange FILE           the rearrangement''s bytes in hex');
  WriteLn(StdErr, '       rival rearranges IN OUT        the rearrangements of many sheets');
  WriteLn(StdErr, '       rival transfer SHEET LIST      the changed sheet''s bytes in hex');
  WriteLn(StdErr, '       rival transfers IN OUT         the changed sheets of many cases');
  WriteLn(StdErr, '       rival transfermarks IN OUT     the corners many lists reach');
  WriteLn(StdErr, '       rival average SHEET RECORD     the changed sheet''s bytes in hex');
  WriteLn(StdErr, '       rival averages IN OUT          the changed sheets of many cases');
  WriteLn(StdErr, '       rival averagemarks IN OUT      the corners many records reach');
  WriteLn(StdErr, '       rival list2015 [FILE]          the listing under the 2015 text');
  WriteLn(StdErr, '       rival settle2015 FILE [BUFFER] that result''s bytes in hex');
  WriteLn(StdErr, '       rival batch2015 IN OUT         those results of many sheets');
  WriteLn(StdErr, '       rival marks2015 IN OUT         the corners of it many sheets reach');
  Halt(StatusWrongUse);
end;

procedure Complain(const Words: string);
begin
  WriteLn(StdErr, 'rival: ', Words);
  { At once: if standard output is the trouble, nothing more is written at the end. }
  Flush(StdErr);
  Halt(StatusTrouble);
end;

function BufferFrom(const Given: string): Int64;
var
  Number, Trouble: Integer;
begin
  if Given = '' then WrongUse;
  for Number := 1 to Length(Given) do
    if not (Given[Number] in ['0'..'9']) then WrongUse;
  Val(Given, Result, Trouble);
  if Trouble <> 0 then WrongUse;
end;

procedure Run;
var
  Command: string;
begin
  Command := ParamStr(1);
  if (Command = 'list') and (ParamCount = 1) then
    ListSheet(StandardInputBytes(MostBytesListed))
  else if (Command = 'list') and (ParamCount = 2) then
    ListSheet(FileBytes(ParamStr(2), MostBytesListed))
  else if (Command = 'settle') and (ParamCount = 2) then
    SettleSheet(FileBytes(ParamStr(2), NoLimit), DefaultBuffer)
  else if (Command = 'settle') and (ParamCount = 3) then
    SettleSheet(FileBytes(ParamStr(2), NoLimit), BufferFrom(ParamStr(3)))
  else if (Command = 'trace') and (ParamCount = 2) then
    TraceSheet(FileBytes(ParamStr(2), NoLimit))
  else if (Command = 'batch') and (ParamCount = 3) then
    AnswerCases(ParamStr(2), ParamStr(3), @SettleNext, nil)
  else if (Command = 'marks') and (ParamCount = 3) then
    AnswerCases(ParamStr(2), ParamStr(3), @SettleNext, @SheetMarks)
  else if (Command = 'rearrange') and (ParamCount = 2) then
    RearrangeSheet(FileBytes(ParamStr(2), NoLimit))
  else if (Command = 'rearranges') and (ParamCount = 3) then
    AnswerCases(ParamStr(2), ParamStr(3), @RearrangeNext, nil)
  else if (Command = 'transfer') and (ParamCount = 3) then
    ChangeSheet(@ChangeByTransfers, FileBytes(ParamStr(2), NoLimit),
      FileBytes(ParamStr(3), NoLimit))
  else if (Command = 'transfers') and (ParamCount = 3) then
    AnswerCases(ParamStr(2), ParamStr(3), @TransferNext, nil)
  else if (Command = 'transfermarks') and (ParamCount = 3) then
    AnswerCases(ParamStr(2), ParamStr(3), @TransferNext, @TransferMarks)
  else if (Command = 'average') and (ParamCount = 3) then
    ChangeSheet(@ChangeByAverage, FileBytes(ParamStr(2), NoLimit),
      FileBytes(ParamStr(3), NoLimit))
  else if (Command = 'averages') and (ParamCount = 3) then
    AnswerCases(ParamStr(2), ParamStr(3), @AverageNext, nil)
  else if (Command = 'averagemarks') and (ParamCount = 3) then
    AnswerCases(ParamStr(2), ParamStr(3), @AverageNext, @AverageMarks)
  else if (Command = 'list2015') and (ParamCount = 1) then
    ListSheet2015(StandardInputBytes(MostBytesListed))
  else if (Command = 'list2015') and (ParamCount = 2) then
    ListSheet2015(FileBytes(ParamStr(2), MostBytesListed))
  else if (Command = 'settle2015') and (ParamCount = 2) then
    SettleSheet2015(FileBytes(ParamStr(2), NoLimit), DefaultBuffer)
  else if (Command = 'settle2015') and (ParamCount = 3) then
    SettleSheet2015(FileBytes(ParamStr(2), NoLimit), BufferFrom(ParamStr(3)))
  else if (Command = 'batch2015') and (ParamCount = 3) then
    AnswerCases(ParamStr(2), ParamStr(3), @Settle2015Next, nil)
  else if (Command = 'marks2015') and (ParamCount = 3) then
    AnswerCases(ParamStr(2), ParamStr(3), @Settle2015Next, @SheetMarks2015)
  else
    WrongUse;
end;

begin
  try
    Run;
    Flush(Output);
  except
    { Files report their trouble in their own words; what is left of this kind is
      standard output. }
    on EInOutError do
      Complain('cannot write to standard output');
    on Trouble: Exception do
      Complain(Trouble.Message);
  end;
end.
