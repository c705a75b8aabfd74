{ The month's sheet as records, and the reading of its bytes.
  Field widths and their order follow document 01, "Units and the sheet"; the days of a
  row, from sheet version 2 on, are request 5 of document 02, and the hours by column of
  version 3 are request 7. }
unit sheets;

{$mode objfpc}{$H+}{$R+}{$Q+}

interface

const
  HeaderWidth = 14;

  VersionOfMonths = 1;  { every row covers the month }
  VersionOfDays = 2;    { each row states its first and last day }
  VersionOfColumns = 3; { the same, and a producer's hours stand by column }

  VersionPlace = 4; { of its byte, after the length }

  PowerWidth = 4; { of one power in one hour }

  MostProducers = 6;
  MostRows = 32;
  MostConsumers = 32;
  MostDays = 31;
  HoursInDay = 24;
  MostHours = HoursInDay * MostDays;

type
  TByteSequence = array of Byte;

  THeader = record
    SheetLength: LongWord;
    Version: Byte;
    Days: Byte;
    FirstWeekday: Byte; { Monday 1 to Sunday 7 }
    Holidays: LongWord; { lowest bit for day 1 }
    ProducerCount: Byte;
    RowCount: Byte;
    ConsumerCount: Byte;
  end;

  { The three series of powers, in the order in which the papers name them: in every
    version the order of the sheet, within an hour or as columns. }
  TSeries = (seriesWorking, seriesPossible, seriesOutsideUse);

  THour = array[TSeries] of LongWord; { tenths of a megawatt }

  { Where a series stands among the bytes of a producer's hours: its power of hour 0, and
    how far it is from one hour's power to the next. }
  TSeriesPlace = record
    Start, Step: Int64;
  end;

  TLayout = array[TSeries] of TSeriesPlace;

  TProducer = record
    AttestedCapacity: LongWord;   { tenths of a megawatt, as the next two }
    DeductibleCapacity: LongWord;
    GreatestOwnNeeds: LongWord;
    HoursWithoutUpwardBid: Word;
    HoursWithoutDownwardBid: Word;
    HoursWithoutPlan: Word;
    K3, K6, K7, K8, K9, K10: LongWord; { millionths, given by the System Operator }
    Hours: array[0..MostHours - 1] of THour; { from hour 0 of day 1 }
  end;

  TRow = record
    Producer: Byte;
    Consumer: Byte;   { or the single buyer }
    Volume: LongWord; { tenths of a megawatt }
    Price: LongWord;  { tiyn per megawatt and month }
    FirstDay: Byte;   { from 1; in version 1 the row covers the month }
    LastDay: Byte;
  end;

  TConsumer = record
    ContractVolume: LongWord;   { tenths of a megawatt, DO in the paper }
    Peak: LongWord;             { tenths of a megawatt }
    SupplierMiningDays: Byte;   { T'' }
    GridMiningDays: Byte;       { T''' }
    Z: Byte;                    { tenths }
    Price: LongWord;            { tiyn per megawatt and month }
  end;

  TSheet = record
    Header: THeader;
    Producers: array[0..MostProducers - 1] of TProducer;
    Rows: array[0..MostRows - 1] of TRow;
    Consumers: array[0..MostConsumers - 1] of TConsumer;
  end;

{ Hours in the month, H in the paper. }
function HoursInMonth(const Header: THeader): Int64;

{ From version 2 on a row states its days. }
function RowsStateDays(const Header: THeader): Boolean;

{ The length that the header's version, counts and days ask for. }
function LengthAskedFor(const Header: THeader): Int64;

{ Where a producer's hours begin. The producers stand first after the header. }
function HoursPlace(const Header: THeader; ProducerNumber: Integer): Int64;

{ How the series of a producer's hours stand in a version: hour by hour up to version 2,
  by column in version 3. }
function LayoutOfHours(Version: Byte; HourCount: Int64): TLayout;

{ Where the power of one hour stands in a sheet, for a series of hours that begin there. }
function PowerPlace(HoursBegin: Int64; const Series: TSeriesPlace; Hour: Integer): Int64;

{ Where a consumer's record begins. The consumers stand last in the sheet. }
function ConsumerPlace(const Header: THeader; Number: Integer): Int64;

function IsSupportRow(const Row: TRow): Boolean;

{ From the first day to the last, both counted, for a row whose days are right. }
function DaysCovered(const Row: TRow): Int64;

{ The readers take a field, highest byte first, and move the place on. }
function NextOne(const Bytes: TByteSequence; var Place: Integer): Byte;
function NextFour(const Bytes: TByteSequence; var Place: Integer): LongWord;

{ With fewer than 14 bytes there is no header, and all its fields are 0. }
procedure ReadHeader(const Bytes: TByteSequence; out Header: THeader);

{ To be called only when the header has passed refusals 1 to 6: then the counts
  are within the records' room and every byte read here is there. The header
  must already stand in the sheet. }
procedure ReadBody(const Bytes: TByteSequence; var Sheet: TSheet);

{ The hours of all producers alone, by whichever layout. Every byte of it must be there. }
procedure ReadAllHours(const Bytes: TByteSequence; const Layout: TLayout; var Sheet: TSheet);

implementation

const
  ProducerWidth = 42; { without the hours }
  HourWidth = 3 * PowerWidth; { 24 of them make 288 a day }
  RowWidth = 10;
  RowWidthOfDays = 12; { two days of one byte after the price }
  ConsumerWidth = 15;

  SingleBuyer = 255; { the consumer number of a support row }

function HoursInMonth(const Header: THeader): Int64;
begin
  Result := HoursInDay * Int64(Header.Days);
end;

function RowsStateDays(const Header: THeader): Boolean;
begin
  Result := Header.Version in [VersionOfDays, VersionOfColumns];
end;

function RowWidthIn(const Header: THeader): Int64;
begin
  if RowsStateDays(Header) then Result := RowWidthOfDays else Result := RowWidth;
end;

{ With its hours. }
function ProducerWidthIn(const Header: THeader): Int64;
begin
  Result := ProducerWidth + HourWidth * HoursInMonth(Header);
end;

function LengthAskedFor(const Header: THeader): Int64;
begin
  Result := HeaderWidth
    + Header.ProducerCount * ProducerWidthIn(Header)
    + RowWidthIn(Header) * Header.RowCount
    + ConsumerWidth * Int64(Header.ConsumerCount);
end;

{ With the count of producers in place of a number: where the last one ends. }
function ProducerPlace(const Header: THeader; Number: Integer): Int64;
begin
  Result := HeaderWidth + Number * ProducerWidthIn(Header);
end;

function HoursPlace(const Header: THeader; ProducerNumber: Integer): Int64;
begin
  Result := ProducerPlace(Header, ProducerNumber) + ProducerWidth;
end;

{ The rows follow the last producer. }
function RowsPlace(const Header: THeader): Int64;
begin
  Result := ProducerPlace(Header, Header.ProducerCount);
end;

{ The one place where the versions differ in their hours. }
function LayoutOfHours(Version: Byte; HourCount: Int64): TLayout;
var
  Series: TSeries;
begin
  for Series := Low(TSeries) to High(TSeries) do
    if Version = VersionOfColumns then
    begin
      Result[Series].Start := Ord(Series) * PowerWidth * HourCount;
      Result[Series].Step := PowerWidth;
    end
    else
    begin
      Result[Series].Start := Ord(Series) * PowerWidth;
      Result[Series].Step := HourWidth;
    end;
end;

function PowerPlace(HoursBegin: Int64; const Series: TSeriesPlace; Hour: Integer): Int64;
begin
  Result := HoursBegin + Series.Start + Series.Step * Hour;
end;

function ConsumerPlace(const Header: THeader; Number: Integer): Int64;
begin
  Result := LengthAskedFor(Header) - ConsumerWidth * (Int64(Header.ConsumerCount) - Number);
end;

function IsSupportRow(const Row: TRow): Boolean;
begin
  Result := Row.Consumer = SingleBuyer;
end;

function DaysCovered(const Row: TRow): Int64;
begin
  Result := Int64(Row.LastDay) - Row.FirstDay + 1;
end;

function NextOne(const Bytes: TByteSequence; var Place: Integer): Byte;
begin
  Result := Bytes[Place];
  Place := Place + 1;
end;

function NextTwo(const Bytes: TByteSequence; var Place: Integer): Word;
begin
  Result := Int64(Bytes[Place]) * 256 + Bytes[Place + 1];
  Place := Place + 2;
end;

function NextFour(const Bytes: TByteSequence; var Place: Integer): LongWord;
begin
  Result := Int64(Bytes[Place]) * 16777216
    + Int64(Bytes[Place + 1]) * 65536
    + Int64(Bytes[Place + 2]) * 256
    + Bytes[Place + 3];
  Place := Place + 4;
end;

procedure ReadHeader(const Bytes: TByteSequence; out Header: THeader);
var
  Place: Integer;
begin
  FillChar(Header, SizeOf(Header), 0);
  if Length(Bytes) < HeaderWidth then Exit;
  Place := 0;
  Header.SheetLength := NextFour(Bytes, Place);
  Header.Version := NextOne(Bytes, Place);
  Header.Days := NextOne(Bytes, Place);
  Header.FirstWeekday := NextOne(Bytes, Place);
  Header.Holidays := NextFour(Bytes, Place);
  Header.ProducerCount := NextOne(Bytes, Place);
  Header.RowCount := NextOne(Bytes, Place);
  Header.ConsumerCount := NextOne(Bytes, Place);
end;

{ What stands before the hours. }
procedure ReadProducer(const Bytes: TByteSequence; Place: Integer; var Producer: TProducer);
begin
  Producer.AttestedCapacity := NextFour(Bytes, Place);
  Producer.DeductibleCapacity := NextFour(Bytes, Place);
  Producer.GreatestOwnNeeds := NextFour(Bytes, Place);
  Producer.HoursWithoutUpwardBid := NextTwo(Bytes, Place);
  Producer.HoursWithoutDownwardBid := NextTwo(Bytes, Place);
  Producer.HoursWithoutPlan := NextTwo(Bytes, Place);
  Producer.K3 := NextFour(Bytes, Place);
  Producer.K6 := NextFour(Bytes, Place);
  Producer.K7 := NextFour(Bytes, Place);
  Producer.K8 := NextFour(Bytes, Place);
  Producer.K9 := NextFour(Bytes, Place);
  Producer.K10 := NextFour(Bytes, Place);
end;

procedure ReadHours(const Bytes: TByteSequence; HoursBegin: Int64; const Layout: TLayout;
  HourCount: Integer; var Producer: TProducer);
var
  Series: TSeries;
  Hour, Place: Integer;
begin
  for Series := Low(TSeries) to High(TSeries) do
    for Hour := 0 to HourCount - 1 do
    begin
      Place := PowerPlace(HoursBegin, Layout[Series], Hour);
      Producer.Hours[Hour][Series] := NextFour(Bytes, Place);
    end;
end;

procedure ReadAllHours(const Bytes: TByteSequence; const Layout: TLayout; var Sheet: TSheet);
var
  Number: Integer;
begin
  for Number := 0 to Sheet.Header.ProducerCount - 1 do
    ReadHours(Bytes, HoursPlace(Sheet.Header, Number), Layout, HoursInMonth(Sheet.Header),
      Sheet.Producers[Number]);
end;

procedure ReadRow(const Bytes: TByteSequence; var Place: Integer; const Header: THeader;
  var Row: TRow);
begin
  Row.Producer := NextOne(Bytes, Place);
  Row.Consumer := NextOne(Bytes, Place);
  Row.Volume := NextFour(Bytes, Place);
  Row.Price := NextFour(Bytes, Place);
  if RowsStateDays(Header) then
  begin
    Row.FirstDay := NextOne(Bytes, Place);
    Row.LastDay := NextOne(Bytes, Place);
  end
  else
  begin
    Row.FirstDay := 1;
    Row.LastDay := Header.Days;
  end;
end;

procedure ReadConsumer(const Bytes: TByteSequence; var Place: Integer;
  var Consumer: TConsumer);
begin
  Consumer.ContractVolume := NextFour(Bytes, Place);
  Consumer.Peak := NextFour(Bytes, Place);
  Consumer.SupplierMiningDays := NextOne(Bytes, Place);
  Consumer.GridMiningDays := NextOne(Bytes, Place);
  Consumer.Z := NextOne(Bytes, Place);
  Consumer.Price := NextFour(Bytes, Place);
end;

procedure ReadBody(const Bytes: TByteSequence; var Sheet: TSheet);
var
  Place, Number: Integer;
begin
  for Number := 0 to Sheet.Header.ProducerCount - 1 do
    ReadProducer(Bytes, ProducerPlace(Sheet.Header, Number), Sheet.Producers[Number]);
  ReadAllHours(Bytes, LayoutOfHours(Sheet.Header.Version, HoursInMonth(Sheet.Header)), Sheet);
  Place := RowsPlace(Sheet.Header);
  for Number := 0 to Sheet.Header.RowCount - 1 do
    ReadRow(Bytes, Place, Sheet.Header, Sheet.Rows[Number]);
  for Number := 0 to Sheet.Header.ConsumerCount - 1 do
    ReadConsumer(Bytes, Place, Sheet.Consumers[Number]);
end;

end.
