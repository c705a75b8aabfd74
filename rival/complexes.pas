{ Industrial complexes by averaging: request 3 of document 02; net power and the method
  of adjacent averaging are those of source document 002, point 2. One complex's record
  is read, the numbers 16 and 17 are tried over it, and the peak is taken. It goes into
  one consumer of the sheet. A refused record changes nothing.

  Powers are kept in Int64, so that drawn less sent can go below 0 before it is stopped
  there. }
unit complexes;

{$mode objfpc}{$H+}{$R+}{$Q+}

interface

uses
  sheets, controlhours;

const
  RecordNumbers = [16, 17]; { the refusals of a record }

type
  { One complex's record. With fewer than 9 bytes there is no front, and its fields
    are 0. The powers are the whole ones that the bytes hold, so a record that ends
    within an hour can have one more drawn than sent. }
  TComplex = record
    BytesHandedOver: Int64;
    LengthField: Int64;
    Consumer: Byte;  { from 0 }
    Imported: Int64; { power of the month, tenths of a megawatt }
    Drawn: TPowers;
    Sent: TPowers;   { out, by its own stations }
  end;

  { Each ground of number 16. }
  TRecordFault = (recordShort, recordLength, recordDays, recordConsumer);
  TRecordFaults = set of TRecordFault;

  TPowerKind = (powerImported, powerDrawn, powerSent);
  TPowerKinds = set of TPowerKind;

  TComplexOutcome = record
    Refusal: Integer;            { one of RecordNumbers, or NotRefused }
    RecordFaults: TRecordFaults; { the grounds of 16 }
    TooHigh: TPowerKinds;        { among which powers some are too high, the ground of 17 }
    Average: TAverage;           { of net power over the control hours, to a tenth; 0 if
                                   refused }
    Peak: Int64;                 { tenths of a megawatt; 0 if refused }
  end;

procedure ReadComplex(const Bytes: TByteSequence; out Complex: TComplex);

{ The grounds of number 16. }
function FaultsOfRecord(const Header: THeader; const Complex: TComplex): TRecordFaults;

{ A less B, or 0 where B is the larger: the paper's "not below 0". }
function LessNotBelowNought(A, B: Int64): Int64;

{ Net power, hour by hour. }
function NetPowers(const Drawn, Sent: TPowers): TPowers;

function PeakFrom(const Average: TAverage; Imported: Int64): Int64;

{ To be called only when the sheet has passed its own numbers. }
procedure TakePeak(const Header: THeader; const Complex: TComplex;
  out Outcome: TComplexOutcome);

{ The sheet's bytes afterwards: the same when the record is refused, otherwise with
  the new peak. }
function SheetBytesWithPeak(const Bytes: TByteSequence; const Header: THeader;
  const Complex: TComplex; const Outcome: TComplexOutcome): TByteSequence;

implementation

uses
  refusals, results;

const
  RecordFrontWidth = 9;    { length, consumer and imported power }
  HourWidth = 8;           { drawn and sent; 24 of them make 192 a day }
  ContractVolumeWidth = 4; { stands before the peak in a consumer }
  PeakWidth = 4;

{ ---------------------------------------------------------------- reading }

{ Drawn, sent, drawn, sent and so on, as far as whole powers reach. }
procedure ReadPowers(const Bytes: TByteSequence; Place: Integer; var Complex: TComplex);
var
  PowerCount, Number: Integer;
begin
  PowerCount := (Length(Bytes) - Place) div PowerWidth;
  SetLength(Complex.Drawn, (PowerCount + 1) div 2);
  SetLength(Complex.Sent, PowerCount div 2);
  for Number := 0 to PowerCount - 1 do
    if Odd(Number) then
      Complex.Sent[Number div 2] := NextFour(Bytes, Place)
    else
      Complex.Drawn[Number div 2] := NextFour(Bytes, Place);
end;

procedure ReadComplex(const Bytes: TByteSequence; out Complex: TComplex);
var
  Place: Integer;
begin
  Complex := Default(TComplex);
  Complex.BytesHandedOver := Length(Bytes);
  if Complex.BytesHandedOver < RecordFrontWidth then Exit;
  Place := 0;
  Complex.LengthField := NextFour(Bytes, Place);
  Complex.Consumer := NextOne(Bytes, Place);
  Complex.Imported := NextFour(Bytes, Place);
  ReadPowers(Bytes, Place, Complex);
end;

{ ---------------------------------------------------------------- number 16 }

function FaultsOfRecord(const Header: THeader; const Complex: TComplex): TRecordFaults;
begin
  if Complex.BytesHandedOver < RecordFrontWidth then Exit([recordShort]);
  Result := [];
  if Complex.LengthField <> Complex.BytesHandedOver then Include(Result, recordLength);
  if Complex.LengthField <> RecordFrontWidth + HourWidth * HoursInMonth(Header) then
    Include(Result, recordDays);
  if Complex.Consumer >= Header.ConsumerCount then Include(Result, recordConsumer);
end;

{ ---------------------------------------------------------------- number 17 }

function SomeTooHigh(const Powers: TPowers): Boolean;
var
  Hour: Integer;
begin
  for Hour := 0 to High(Powers) do
    if Powers[Hour] > TopCapacity then Exit(True);
  Result := False;
end;

function KindsTooHigh(const Complex: TComplex): TPowerKinds;
begin
  Result := [];
  if Complex.Imported > TopCapacity then Include(Result, powerImported);
  if SomeTooHigh(Complex.Drawn) then Include(Result, powerDrawn);
  if SomeTooHigh(Complex.Sent) then Include(Result, powerSent);
end;

{ ---------------------------------------------------------------- the peak }

function LessNotBelowNought(A, B: Int64): Int64;
begin
  if A > B then Result := A - B else Result := 0;
end;

function NetPowers(const Drawn, Sent: TPowers): TPowers;
var
  Hour: Integer;
begin
  Result := nil;
  SetLength(Result, Length(Drawn));
  for Hour := 0 to High(Result) do
    Result[Hour] := LessNotBelowNought(Drawn[Hour], Sent[Hour]);
end;

{ Without a control day the average is 0, and so is the peak. }
function PeakFrom(const Average: TAverage; Imported: Int64): Int64;
begin
  Result := LessNotBelowNought(Average.Figure, Imported);
end;

{ ---------------------------------------------------------------- the whole }

procedure TakePeak(const Header: THeader; const Complex: TComplex;
  out Outcome: TComplexOutcome);
begin
  Outcome := Default(TComplexOutcome);
  Outcome.Refusal := NotRefused;
  Outcome.RecordFaults := FaultsOfRecord(Header, Complex);
  Outcome.TooHigh := KindsTooHigh(Complex);
  if Outcome.RecordFaults <> [] then
    Outcome.Refusal := 16
  else if Outcome.TooHigh <> [] then
    Outcome.Refusal := 17
  else
  begin
    Outcome.Average := AverageOver(ControlHoursOf(Header),
      NetPowers(Complex.Drawn, Complex.Sent), toTenth);
    Outcome.Peak := PeakFrom(Outcome.Average, Complex.Imported);
  end;
end;

function SheetBytesWithPeak(const Bytes: TByteSequence; const Header: THeader;
  const Complex: TComplex; const Outcome: TComplexOutcome): TByteSequence;
var
  Place: Integer;
begin
  Result := Copy(Bytes);
  if Outcome.Refusal <> NotRefused then Exit;
  Place := ConsumerPlace(Header, Complex.Consumer) + ContractVolumeWidth;
  Put(Result, Place, PeakWidth, Outcome.Peak);
end;

end.
