{ Consumers under the 2015 text: request 4 of document 02, with the bands of points 37 to
  40 of source document 003. Of an accepted sheet it takes the consumers' contract volumes,
  peaks and prices and nothing else: this text knows no credit, no mining days and no z.

  Every product and every quotient is worked out in exact fractions. The figures are kept
  with what lies between, so that marks2015.pas can tell which corners they reach. }
unit texts2015;

{$mode objfpc}{$H+}{$R+}{$Q+}

interface

uses
  exact, sheets;

type
  TConsumerFigures2015 = record
    Excess: TRounded; { hundredths of a percent of the contract volume }
    Factor: Int64;    { tenths }
    Volume: TRounded; { tenths of a megawatt }
    Charge: TRounded; { tiyn }
  end;

  TSettlement2015 = array[0..MostConsumers - 1] of TConsumerFigures2015;

{ The factor of a contract volume and a peak, in tenths. }
function FactorOf(ContractVolume, Peak: Int64): Int64;

{ The sheet has passed all its refusals. }
procedure Settle2015(const Sheet: TSheet; out Settlement: TSettlement2015);

{ The result's length, known from the header alone. }
function ResultLength2015(const Header: THeader): Int64;

function ResultBytes2015(const Sheet: TSheet; const Settlement: TSettlement2015): TByteSequence;

implementation

uses
  results;

type
  TBand = record
    UpTo: QWord;   { hundredths of a percent, the band's own upper edge }
    Factor: Int64; { tenths }
  end;

const
  HundredthsInWhole = 10000; { hundredths of a percent }
  TenthsInMegawatt = 10;

  { Points 37, 38, 39 and 40. }
  BandTable: array[0..3] of TBand = (
    (UpTo: 500; Factor: 10),
    (UpTo: 1000; Factor: 11),
    (UpTo: 2000; Factor: 12),
    (UpTo: High(QWord); Factor: 15));

  AboveTwenty = 2001; { the excess of a peak above 0 over a contract of 0 }

  FrontWidth = 4;     { the length alone }
  ConsumerResultWidth = 17;

{ -------------------------------------------------------- excess and factor }

{ The sheet's own peak over the contract volume, in hundredths of a percent of it. }
function ExcessOf(ContractVolume, Peak: Int64): TRounded;
var
  Contract, Above: TFraction;
begin
  Contract := Whole(ContractVolume);
  Above := LessNotBelowNought(Whole(Peak), Contract);
  if not IsNought(Contract) then
    Result := RoundedWithWay(Above * Whole(HundredthsInWhole) / Contract)
  else if IsNought(Above) then
    Result := RoundedWithWay(Whole(0))
  else
    Result := RoundedWithWay(Whole(AboveTwenty));
end;

function FactorAt(Excess: QWord): Int64;
var
  Band: Integer;
begin
  Band := Low(BandTable);
  while Excess > BandTable[Band].UpTo do
    Band := Band + 1;
  Result := BandTable[Band].Factor;
end;

function FactorOf(ContractVolume, Peak: Int64): Int64;
begin
  Result := FactorAt(ExcessOf(ContractVolume, Peak).Figure);
end;

{ --------------------------------------------------------------- consumers }

procedure SettleConsumer(const Consumer: TConsumer; out Figures: TConsumerFigures2015);
begin
  Figures.Excess := ExcessOf(Consumer.ContractVolume, Consumer.Peak);
  Figures.Factor := FactorAt(Figures.Excess.Figure);
  { The factor stands in tenths. }
  Figures.Volume := RoundedWithWay(Whole(Consumer.ContractVolume) * Part(Figures.Factor, 10));
  { The price is for a whole megawatt, the volume, already rounded, stands in tenths. }
  Figures.Charge := RoundedWithWay(
    Part(Figures.Volume.Figure, TenthsInMegawatt) * Whole(Consumer.Price));
end;

procedure Settle2015(const Sheet: TSheet; out Settlement: TSettlement2015);
var
  Number: Integer;
begin
  Settlement := Default(TSettlement2015);
  for Number := 0 to Sheet.Header.ConsumerCount - 1 do
    SettleConsumer(Sheet.Consumers[Number], Settlement[Number]);
end;

{ -------------------------------------------------------------- the result }

function ResultLength2015(const Header: THeader): Int64;
begin
  Result := FrontWidth + ConsumerResultWidth * Int64(Header.ConsumerCount);
end;

function ResultBytes2015(const Sheet: TSheet; const Settlement: TSettlement2015): TByteSequence;
var
  Place, Number: Integer;
begin
  Result := nil;
  SetLength(Result, ResultLength2015(Sheet.Header));
  Place := 0;
  Put(Result, Place, 4, Length(Result));
  for Number := 0 to Sheet.Header.ConsumerCount - 1 do
    with Settlement[Number] do
    begin
      Put(Result, Place, 1, Factor);
      Put(Result, Place, 8, Volume.Figure);
      Put(Result, Place, 8, Charge.Figure);
    end;
end;

end.
