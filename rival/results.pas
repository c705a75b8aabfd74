{ The result's bytes, as document 01's section Result lays them out. }
unit results;

{$mode objfpc}{$H+}{$R+}{$Q+}

interface

uses
  sheets, settlements;

{ The result's length, known from the header alone. }
function ResultLength(const Header: THeader): Int64;

function ResultBytes(const Sheet: TSheet; const Settlement: TSettlement): TByteSequence;

{ Whether two results of one sheet, so of one length, are not the same byte by byte. }
function Differ(const A, B: TByteSequence): Boolean;

{ Writes a figure in Width bytes, highest byte first, and moves the place on. A
  figure too large for its width would be a range error. }
procedure Put(var Bytes: TByteSequence; var Place: Integer; Width: Integer; Figure: QWord);

implementation

const
  ResultVersion = 1;
  FrameWidth = 21;          { length, version and the two totals }
  RowResultWidth = 16;
  ConsumerResultWidth = 25;

function ResultLength(const Header: THeader): Int64;
begin
  Result := FrameWidth + RowResultWidth * Int64(Header.RowCount)
    + ConsumerResultWidth * Int64(Header.ConsumerCount);
end;

procedure Put(var Bytes: TByteSequence; var Place: Integer; Width: Integer; Figure: QWord);
var
  Number: Integer;
begin
  for Number := Width - 1 downto 1 do
  begin
    Bytes[Place + Number] := Figure mod 256;
    Figure := Figure div 256;
  end;
  Bytes[Place] := Figure;
  Place := Place + Width;
end;

function ResultBytes(const Sheet: TSheet; const Settlement: TSettlement): TByteSequence;
var
  Place, Number: Integer;
begin
  Result := nil;
  SetLength(Result, ResultLength(Sheet.Header));
  Place := 0;
  Put(Result, Place, 4, Length(Result));
  Put(Result, Place, 1, ResultVersion);
  for Number := 0 to Sheet.Header.RowCount - 1 do
    with Settlement.Rows[Number] do
    begin
      Put(Result, Place, 4, VolumeAfterCut);
      Put(Result, Place, 4, ActualVolume);
      Put(Result, Place, 8, Payment);
    end;
  for Number := 0 to Sheet.Header.ConsumerCount - 1 do
    with Settlement.Consumers[Number] do
    begin
      Put(Result, Place, 4, Credit);
      Put(Result, Place, 4, P);
      Put(Result, Place, 1, N);
      Put(Result, Place, 8, ActualVolume);
      Put(Result, Place, 8, Charge);
    end;
  Put(Result, Place, 8, Settlement.TotalPaid);
  Put(Result, Place, 8, Settlement.TotalCharged);
end;

function Differ(const A, B: TByteSequence): Boolean;
var
  Number: Integer;
begin
  for Number := 0 to High(A) do
    if A[Number] <> B[Number] then Exit(True);
  Result := False;
end;

end.
