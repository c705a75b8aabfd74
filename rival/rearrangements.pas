{ Rearrangements: request 7 of document 02. Of a version 2 sheet the version 3 sheet with
  the same figures, and of a version 3 sheet the version 2 one. The version and the places
  of the hours change, and no other byte. }
unit rearrangements;

{$mode objfpc}{$H+}{$R+}{$Q+}

interface

uses
  sheets;

{ A version 1 sheet has no rearrangement: its rows are not those of version 3. }
function HasRearrangement(const Header: THeader): Boolean;

{ The bytes of the rearrangement, for a sheet that has one, got past refusal 6 and has
  been read whole. Its figures need not be right otherwise. }
function Rearranged(const Bytes: TByteSequence; const Sheet: TSheet): TByteSequence;

implementation

uses
  results;

const
  VersionWidth = 1;

function HasRearrangement(const Header: THeader): Boolean;
begin
  Result := Header.Version in [VersionOfDays, VersionOfColumns];
end;

function OtherVersion(Version: Byte): Byte;
begin
  if Version = VersionOfColumns then
    Result := VersionOfDays
  else
    Result := VersionOfColumns;
end;

procedure PutVersion(var Bytes: TByteSequence; Version: Byte);
var
  Place: Integer;
begin
  Place := VersionPlace;
  Put(Bytes, Place, VersionWidth, Version);
end;

procedure PutHours(var Bytes: TByteSequence; HoursBegin: Int64; const Layout: TLayout;
  HourCount: Integer; const Producer: TProducer);
var
  Series: TSeries;
  Hour, Place: Integer;
begin
  for Series := Low(TSeries) to High(TSeries) do
    for Hour := 0 to HourCount - 1 do
    begin
      Place := PowerPlace(HoursBegin, Layout[Series], Hour);
      Put(Bytes, Place, PowerWidth, Producer.Hours[Hour][Series]);
    end;
end;

function Rearranged(const Bytes: TByteSequence; const Sheet: TSheet): TByteSequence;
var
  Version: Byte;
  Layout: TLayout;
  Number: Integer;
begin
  Version := OtherVersion(Sheet.Header.Version);
  Layout := LayoutOfHours(Version, HoursInMonth(Sheet.Header));
  Result := Copy(Bytes);
  PutVersion(Result, Version);
  for Number := 0 to Sheet.Header.ProducerCount - 1 do
    PutHours(Result, HoursPlace(Sheet.Header, Number), Layout, HoursInMonth(Sheet.Header),
      Sheet.Producers[Number]);
end;

end.
