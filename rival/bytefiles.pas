{ Files of bytes: opening, reading and writing them, with plain words for what
  goes wrong. }
unit bytefiles;

{$mode objfpc}{$H+}{$R+}{$Q+}

interface

uses
  SysUtils, sheets;

type
  EFileTrouble = class(Exception);

procedure OpenStandardInput(var Source: file);
procedure OpenForReading(var Source: file; const Name: string);
procedure OpenForWriting(var Target: file; const Name: string);

{ Reads until Limit bytes are there or the file ends. }
function ReadUpTo(var Source: file; Limit: Int64): TByteSequence;

procedure WriteBytes(var Target: file; const Bytes: TByteSequence);

{ Reports a failure that showed only in closing. }
procedure CloseAfterWriting(var Target: file);

implementation

const
  BytesAtATime = 65536;

procedure OpenStandardInput(var Source: file);
begin
  FileMode := fmOpenRead;
  Assign(Source, '');
  {$I-}
  Reset(Source, 1);
  {$I+}
  if IOResult <> 0 then
    raise EFileTrouble.Create('cannot read standard input');
end;

procedure OpenForReading(var Source: file; const Name: string);
begin
  if not FileExists(Name) then
    raise EFileTrouble.Create('there is no file ' + Name);
  FileMode := fmOpenRead;
  Assign(Source, Name);
  {$I-}
  Reset(Source, 1);
  {$I+}
  if IOResult <> 0 then
    raise EFileTrouble.Create('cannot open ' + Name);
end;

procedure OpenForWriting(var Target: file; const Name: string);
begin
  if Name = '' then
    raise EFileTrouble.Create('the file to write has no name');
  Assign(Target, Name);
  {$I-}
  Rewrite(Target, 1);
  {$I+}
  if IOResult <> 0 then
    raise EFileTrouble.Create('cannot write ' + Name);
end;

function ReadUpTo(var Source: file; Limit: Int64): TByteSequence;
var
  Here, Wanted, Got: Int64;
begin
  Result := nil;
  Here := 0;
  while Here < Limit do
  begin
    Wanted := Limit - Here;
    if Wanted > BytesAtATime then Wanted := BytesAtATime;
    { Room grows with what has come, so a false length in a short file does no harm. }
    if Length(Result) < Here + Wanted then
      SetLength(Result, 2 * Here + Wanted);
    Got := 0;
    {$I-}
    BlockRead(Source, Result[Here], Wanted, Got);
    {$I+}
    if IOResult <> 0 then
      raise EFileTrouble.Create('reading failed');
    if Got <= 0 then Break;
    Here := Here + Got;
  end;
  SetLength(Result, Here);
end;

procedure WriteBytes(var Target: file; const Bytes: TByteSequence);
var
  Done: Int64;
begin
  if Length(Bytes) = 0 then Exit;
  Done := 0;
  {$I-}
  BlockWrite(Target, Bytes[0], Length(Bytes), Done);
  {$I+}
  if (IOResult <> 0) or (Done <> Length(Bytes)) then
    raise EFileTrouble.Create('writing failed');
end;

procedure CloseAfterWriting(var Target: file);
begin
  {$I-}
  Close(Target);
  {$I+}
  if IOResult <> 0 then
    raise EFileTrouble.Create('writing failed');
end;

end.
