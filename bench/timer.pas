{ Settles one sheet by the rival again and again, in memory, and prints the
  nanoseconds of a call, the answer, and a sum over the result: as timer.c does.

    timer rival|none CALLS SHEET [quiet]

  A call reads the bytes into records, refuses or settles, and makes the result's
  bytes. The rival's units keep their range and overflow checks. }
program timer;

{$mode objfpc}{$H+}

uses
  SysUtils, Linux, UnixType, sheets, refusals, settlements, results, bytefiles;

var
  Sheet: TSheet;
  Settlement: TSettlement;
  Outcome: TByteSequence = nil;

{ The processor's time, in nanoseconds. }
function Now: Double;
var
  Time: TTimeSpec;
begin
  clock_gettime(CLOCK_PROCESS_CPUTIME_ID, @Time);
  Result := 1e9 * Time.tv_sec + Time.tv_nsec;
end;

function AnswerTo(const Bytes: TByteSequence): Int64;
var
  Refusal: Integer;
begin
  ReadHeader(Bytes, Sheet.Header);
  Refusal := RefusalByHeader(Sheet.Header, Length(Bytes));
  if Refusal <> NotRefused then Exit(-Refusal);
  ReadBody(Bytes, Sheet);
  Refusal := RefusalByBody(Sheet, 2000);
  if Refusal <> NotRefused then Exit(-Refusal);
  Settle(Sheet, Settlement);
  Outcome := ResultBytes(Sheet, Settlement);
  Result := Length(Outcome);
end;

function Timed(Calls: Int64; const Bytes: TByteSequence; Settles: Boolean; var Answer: Int64): Double;
var
  Start: Double;
  Number: Int64;
begin
  Start := Now;
  for Number := 1 to Calls do
    if Settles then
      Answer := AnswerTo(Bytes);
  Result := (Now - Start) / Calls;
end;

var
  Source: file;
  Bytes: TByteSequence;
  Calls, Answer: Int64;
  Number: Integer;
  Settles: Boolean;
  Taken: Double;
  Over: LongWord;
begin
  if (ParamCount <> 3) and (ParamCount <> 4) then
  begin
    WriteLn(StdErr, 'usage: timer rival|none CALLS SHEET [quiet]');
    Halt(2);
  end;
  Settles := ParamStr(1) = 'rival';
  Calls := StrToInt64(ParamStr(2));
  OpenForReading(Source, ParamStr(3));
  Bytes := ReadUpTo(Source, 1048576);
  Close(Source);
  Answer := 0;
  Timed(Calls div 8 + 1, Bytes, Settles, Answer);
  Taken := Timed(Calls, Bytes, Settles, Answer);
  if ParamCount = 4 then Halt(0);
  Over := 0;
  for Number := 0 to Answer - 1 do
    Over := LongWord((QWord(Over) * 31 + Outcome[Number]) and $FFFFFFFF);
  WriteLn(Taken:0:3, ' ', Answer, ' ', Over);
end.
