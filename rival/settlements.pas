{ The settlement of an accepted sheet. The figures are kept with all that lies
  between, so that a person can follow them (see traces.pas).

  Whole figures and their sums are kept in Int64. They fit with much to spare: a
  capacity figure is at most 100,000 tenths, a month has at most 744 hours, so
  no sum over hours passes 74,400,000; a sheet has at most 32 rows, so no sum
  over rows passes 3,300,000. Where k1 works in hundredths (request 6 of document
  02), these figures are ten times as large. Every product and every quotient is
  worked out in exact fractions. T, B and S are kept twice (request 8): before the cut,
  for the excess, and after it, for k1 and k4. Money is kept in QWord: one charge can reach
  about 4.1 x 10^17 tiyn, and 32 of them 1.31 x 10^19, which is past Int64 but
  not past QWord. }
unit settlements;

{$mode objfpc}{$H+}{$R+}{$Q+}

interface

uses
  exact, sheets;

const
  Million = 1000000;           { 1 as a coefficient; also millionths in a megawatt }
  MillionthsInTenth = 100000;

type
  { Each figure that document 01, as requests 5, 6 and 8 of document 02 change it, has
    rounded. The set of ties tells which of them lay exactly on a half somewhere in the
    sheet; no figure depends on it. k1 and k4 count only where they are used rounded, for
    a producer with more rows than one. }
  TRoundedFigure = (figAverage, figP, figK1, figK2, figK4, figK5, figFraction,
    figProduct, figDays, figVolume, figPayment, figConsumerVolume, figCharge);
  TTies = set of TRoundedFigure;

  TBandNumber = 0..4;

  TCoefficients = array[1..10] of Int64; { k1 to k10, millionths }

  { What k1 is made of, beside T. }
  TOverUse = record
    D: Int64;              { the control average less the deductible, hundredths }
    P: Int64;              { thousandths of the deductible }
    Band: TBandNumber;
    N: Int64;              { tenths }
  end;

  { A volume for each row of the sheet, tenths. }
  TVolumes = array[0..MostRows - 1] of Int64;

  { What a producer's rows come to, tenths. }
  TSums = record
    T: Int64;              { its support rows }
    B: Int64;              { its bilateral rows }
    S: Int64;              { T + B + deductible }
  end;

  { What k4 is made of, tenths. }
  TSumsOverHours = record
    M: Int64;              { of the smaller of S and possible power }
    Worked: Int64;         { of the smaller of m and working power }
  end;

  TProducerFigures = record
    RowCount: Int64;       { the rows of the sheet that name it, whatever their volume }
    AsOneFraction: Boolean; { its row is worked as one fraction: it has a single one }
    BeforeCut: TSums;      { by the volumes of the sheet; the excess comes from these }
    Excess: Int64;         { to be cut from the rows, tenths }
    AfterCut: TSums;       { by the volumes after the cut; k1 and k4 come from these }
    ControlHours: Int64;
    ControlSum: Int64;     { outside use over the control hours, tenths }
    ControlAverage: Int64; { hundredths }
    OverUse: TOverUse;
    OverHours: TSumsOverHours;
    ExactK1: TFraction;    { k1 and k4 before they are rounded, for the one fraction }
    ExactK4: TFraction;
    K: TCoefficients;
  end;

  TRowFigures = record
    VolumeAfterCut: Int64; { tenths }
    { The running product after k1, k2 ... k10, millionths. In a single row the first is
      the one fraction, rounded, and the fourth the third again: k4 is in the first. }
    Products: TCoefficients;
    ForDaysCovered: Int64; { the last product's share for the days covered, millionths }
    ActualVolume: Int64;   { tenths }
    Payment: QWord;        { tiyn }
  end;

  TConsumerFigures = record
    Credit: Int64;         { tenths }
    CountedPeak: Int64;    { tenths }
    Excess: TFraction;     { Do, tenths, exact }
    P: Int64;              { thousandths of the contract volume }
    Band: TBandNumber;
    N: Int64;              { tenths }
    ActualVolume: Int64;   { tenths }
    Charge: QWord;         { tiyn }
  end;

  TSettlement = record
    Producers: array[0..MostProducers - 1] of TProducerFigures;
    Rows: array[0..MostRows - 1] of TRowFigures;
    Consumers: array[0..MostConsumers - 1] of TConsumerFigures;
    TotalPaid: QWord;      { tiyn }
    TotalCharged: QWord;   { tiyn }
    Ties: TTies;
  end;

{ The sheet has passed all its refusals. }
procedure Settle(const Sheet: TSheet; out Settlement: TSettlement);

{ Its two halves, for marks that ask what other figures of the producers would have
  given: the producers' figures with their rows' volumes after the cut, all else at 0, and
  then once what is worked out from these. }
procedure SettleProducers(const Sheet: TSheet; out Settlement: TSettlement);
procedure SettleRowsAndConsumers(const Sheet: TSheet; var Settlement: TSettlement);

{ And smaller parts. The rows' volumes, those of the sheet and those after the cut; the
  sums of one producer's rows by some volumes; what an S exceeds a producer's capacity by;
  the cut of one producer's rows alone. }
function VolumesBeforeCut(const Sheet: TSheet): TVolumes;
function VolumesAfterCut(const Sheet: TSheet; const Settlement: TSettlement): TVolumes;
function SumsOf(const Sheet: TSheet; ProducerNumber: Integer;
  const Volumes: TVolumes): TSums;
function ExcessOf(const Producer: TProducer; S: Int64): Int64;
procedure CutRows(const Sheet: TSheet; ProducerNumber: Integer; Excess: Int64;
  var Settlement: TSettlement);

{ The steps of k1: D with its band, from an average and a deductible capacity in
  hundredths; the penalty n x D, in hundredths, and whether it is below a T in tenths (-1),
  at it (0) or above it (1); k1, exact, from a penalty and a T in tenths. }
function OverUseOf(Average, Deductible: Int64; var Ties: TTies): TOverUse;
function NTimesD(const OverUse: TOverUse): TFraction;
function PenaltyAgainst(const OverUse: TOverUse; T: Int64): Integer;
function K1Of(const Penalty: TFraction; T: Int64): TFraction;

{ The sums that k4 is made of, from an S in tenths. }
function SumsOverHours(const Producer: TProducer; H, S: Int64): TSumsOverHours;

{ k1 and k4 of one producer, exact and rounded, from a T and an S in tenths. }
procedure TakeK1AndK4(const Sheet: TSheet; ProducerNumber: Integer; T, S: Int64;
  var Settlement: TSettlement);

{ A volume in millionths times the exact k1 and k4 of its producer; the running products
  of a row that has this volume. }
function OneFraction(const Producer: TProducerFigures; Volume: Int64): TFraction;
procedure TakeProducts(const Producer: TProducerFigures; Volume: Int64;
  var Products: TCoefficients; var Ties: TTies);

implementation

uses
  controlhours;

type
  TBand = record
    UpTo: Int64;   { thousandths, the band's own upper edge }
    Factor: Int64; { tenths }
  end;

const
  TenthsInMegawatt = 10;

  BandTable: array[TBandNumber] of TBand = (
    (UpTo: 50; Factor: 0),
    (UpTo: 200; Factor: 13),
    (UpTo: 400; Factor: 15),
    (UpTo: 500; Factor: 17),
    (UpTo: High(Int64); Factor: 20));

  PastAllBands = 501; { p for an excess over a reference of 0 }

{ --------------------------------------------------------------- rounding }

{ The only place here where a fraction becomes a whole unit. The control average comes
  rounded from controlhours.pas. }
function Rounded(Figure: TRoundedFigure; const Value: TFraction; var Ties: TTies): QWord;
var
  ExactHalf: Boolean;
begin
  Result := RoundedHalfUp(Value, ExactHalf);
  if ExactHalf then Include(Ties, Figure);
end;

{ A coefficient is rounded in millionths. }
function Coefficient(Figure: TRoundedFigure; const Value: TFraction; var Ties: TTies): Int64;
begin
  Result := Rounded(Figure, Value * Whole(Million), Ties);
end;

function Smaller(A, B: Int64): Int64;
begin
  if A < B then Result := A else Result := B;
end;

function Larger(A, B: Int64): Int64;
begin
  if A > B then Result := A else Result := B;
end;

{ ------------------------------------------------------------------- bands }

{ Section Bands: the excess E in thousandths of the reference Q. }
function ThousandthsOf(const E, Q: TFraction; var Ties: TTies): Int64;
begin
  if not IsNought(Q) then
    Result := Rounded(figP, E * Whole(1000) / Q, Ties)
  else if IsNought(E) then
    Result := 0
  else
    Result := PastAllBands;
end;

function BandOf(P: Int64): TBandNumber;
begin
  Result := 0;
  while P > BandTable[Result].UpTo do
    Result := Result + 1;
end;

{ ----------------------------------------------------------- control hours }

function OutsideUseOf(const Producer: TProducer; H: Int64): TPowers;
var
  Hour: Integer;
begin
  Result := nil;
  SetLength(Result, H);
  for Hour := 0 to H - 1 do
    Result[Hour] := Producer.Hours[Hour][seriesOutsideUse];
end;

{ Section Control hours: the control average of outside use, to a hundredth. }
procedure TakeControlAverage(const Header: THeader; const Producer: TProducer;
  var Figures: TProducerFigures; var Ties: TTies);
var
  Average: TAverage;
begin
  Average := AverageOver(ControlHoursOf(Header),
    OutsideUseOf(Producer, HoursInMonth(Header)), toHundredth);
  Figures.ControlHours := Average.Hours;
  Figures.ControlSum := Average.Sum;
  Figures.ControlAverage := Average.Figure;
  if Average.ExactHalf then Include(Ties, figAverage);
end;

{ --------------------------------------------------------------------- cut }

function VolumesBeforeCut(const Sheet: TSheet): TVolumes;
var
  Number: Integer;
begin
  Result := Default(TVolumes);
  for Number := 0 to Sheet.Header.RowCount - 1 do
    Result[Number] := Sheet.Rows[Number].Volume;
end;

function VolumesAfterCut(const Sheet: TSheet; const Settlement: TSettlement): TVolumes;
var
  Number: Integer;
begin
  Result := Default(TVolumes);
  for Number := 0 to Sheet.Header.RowCount - 1 do
    Result[Number] := Settlement.Rows[Number].VolumeAfterCut;
end;

{ Every row that names the producer counts, be its volume 0. }
function RowCountOf(const Sheet: TSheet; ProducerNumber: Integer): Int64;
var
  Number: Integer;
begin
  Result := 0;
  for Number := 0 to Sheet.Header.RowCount - 1 do
    if Sheet.Rows[Number].Producer = ProducerNumber then
      Result := Result + 1;
end;

{ Section Cut: T, B and S of one producer. }
function SumsOf(const Sheet: TSheet; ProducerNumber: Integer;
  const Volumes: TVolumes): TSums;
var
  Number: Integer;
begin
  Result.T := 0;
  Result.B := 0;
  for Number := 0 to Sheet.Header.RowCount - 1 do
    if Sheet.Rows[Number].Producer = ProducerNumber then
      if IsSupportRow(Sheet.Rows[Number]) then
        Result.T := Result.T + Volumes[Number]
      else
        Result.B := Result.B + Volumes[Number];
  Result.S := Result.T + Result.B + Sheet.Producers[ProducerNumber].DeductibleCapacity;
end;

{ Section Cut: what is to be cut, from S before the cut. }
function ExcessOf(const Producer: TProducer; S: Int64): Int64;
var
  LessOwnNeeds: Int64;
begin
  LessOwnNeeds := Larger(S - Producer.GreatestOwnNeeds, 0);
  Result := Larger(LessOwnNeeds - Producer.AttestedCapacity, 0);
end;

{ Section Cut: each row of the producer, in sheet order, gives what it has until the
  excess is used up. }
procedure CutRows(const Sheet: TSheet; ProducerNumber: Integer; Excess: Int64;
  var Settlement: TSettlement);
var
  Number: Integer;
  StillToCut, Given: Int64;
begin
  StillToCut := Excess;
  for Number := 0 to Sheet.Header.RowCount - 1 do
    if Sheet.Rows[Number].Producer = ProducerNumber then
    begin
      Given := Smaller(Sheet.Rows[Number].Volume, StillToCut);
      Settlement.Rows[Number].VolumeAfterCut := Sheet.Rows[Number].Volume - Given;
      StillToCut := StillToCut - Given;
    end;
end;

{ The rows' volumes after the cut, and what they came to before it and come to now. }
procedure TakeCut(const Sheet: TSheet; ProducerNumber: Integer; var Settlement: TSettlement);
begin
  with Settlement.Producers[ProducerNumber] do
  begin
    RowCount := RowCountOf(Sheet, ProducerNumber);
    AsOneFraction := RowCount = 1;
    BeforeCut := SumsOf(Sheet, ProducerNumber, VolumesBeforeCut(Sheet));
    Excess := ExcessOf(Sheet.Producers[ProducerNumber], BeforeCut.S);
    CutRows(Sheet, ProducerNumber, Excess, Settlement);
    AfterCut := SumsOf(Sheet, ProducerNumber, VolumesAfterCut(Sheet, Settlement));
  end;
end;

{ ------------------------------------------------------------ coefficients }

{ Section Coefficients, k1: outside use in the control hours above the deductible. }
function OverUseOf(Average, Deductible: Int64; var Ties: TTies): TOverUse;
begin
  Result.D := Larger(Average - Deductible, 0);
  Result.P := ThousandthsOf(Whole(Result.D), Whole(Deductible), Ties);
  Result.Band := BandOf(Result.P);
  Result.N := BandTable[Result.Band].Factor;
end;

function NTimesD(const OverUse: TOverUse): TFraction;
begin
  Result := Part(OverUse.N, 10) * Whole(OverUse.D);
end;

{ In hundredths, as the penalty is. }
function InHundredths(T: Int64): TFraction;
begin
  Result := Whole(HundredthsInTenth * T);
end;

function PenaltyAgainst(const OverUse: TOverUse; T: Int64): Integer;
begin
  Result := CompareFractions(NTimesD(OverUse), InHundredths(T));
end;

function K1Of(const Penalty: TFraction; T: Int64): TFraction;
begin
  if T > 0 then
    Result := LessNotBelowNought(Whole(1), Penalty / InHundredths(T))
  else if IsNought(Penalty) then
    Result := Whole(1)
  else
    Result := Whole(0);
end;

{ All of it in hundredths (request 6 of document 02): the sheet's tenths count ten each. }
procedure TakeOverUse(const Producer: TProducer; var Figures: TProducerFigures;
  var Ties: TTies);
begin
  Figures.OverUse := OverUseOf(Figures.ControlAverage,
    HundredthsInTenth * Int64(Producer.DeductibleCapacity), Ties);
end;

{ k2: the worse of the two bid counts, not both. }
procedure TakeK2(const Producer: TProducer; H: Int64; var Figures: TProducerFigures;
  var Ties: TTies);
var
  WithoutBid: Int64;
begin
  WithoutBid := Larger(Producer.HoursWithoutUpwardBid, Producer.HoursWithoutDownwardBid);
  Figures.K[2] := Coefficient(figK2, Whole(H - WithoutBid) / Whole(H), Ties);
end;

{ k4: hour by hour. }
function SumsOverHours(const Producer: TProducer; H, S: Int64): TSumsOverHours;
var
  Hour: Integer;
  M: Int64;
begin
  Result.M := 0;
  Result.Worked := 0;
  for Hour := 0 to H - 1 do
  begin
    M := Smaller(S, Producer.Hours[Hour][seriesPossible]);
    Result.M := Result.M + M;
    Result.Worked := Result.Worked + Smaller(M, Producer.Hours[Hour][seriesWorking]);
  end;
end;

function K4Of(const OverHours: TSumsOverHours): TFraction;
begin
  if OverHours.M = 0 then
    Result := Whole(1)
  else
    Result := Whole(OverHours.Worked) / Whole(OverHours.M);
end;

{ k1 and k4 to a millionth. With fewer rows than two nothing is multiplied by them, and a
  half is no tie of the sheet. }
procedure RoundK1AndK4(var Figures: TProducerFigures; var Ties: TTies);
var
  TiesOfThese: TTies;
begin
  TiesOfThese := [];
  Figures.K[1] := Coefficient(figK1, Figures.ExactK1, TiesOfThese);
  Figures.K[4] := Coefficient(figK4, Figures.ExactK4, TiesOfThese);
  if Figures.RowCount > 1 then Ties := Ties + TiesOfThese;
end;

procedure TakeK1AndK4(const Sheet: TSheet; ProducerNumber: Integer; T, S: Int64;
  var Settlement: TSettlement);
begin
  with Settlement.Producers[ProducerNumber] do
  begin
    ExactK1 := K1Of(NTimesD(OverUse), T);
    OverHours := SumsOverHours(Sheet.Producers[ProducerNumber],
      HoursInMonth(Sheet.Header), S);
    ExactK4 := K4Of(OverHours);
  end;
  RoundK1AndK4(Settlement.Producers[ProducerNumber], Settlement.Ties);
end;

{ k5: the hours with a plan. }
procedure TakeK5(const Producer: TProducer; H: Int64; var Figures: TProducerFigures;
  var Ties: TTies);
begin
  Figures.K[5] := Coefficient(figK5, Whole(H - Producer.HoursWithoutPlan) / Whole(H), Ties);
end;

{ Those that the sheet carries. }
procedure TakeGivenCoefficients(const Producer: TProducer; var Figures: TProducerFigures);
begin
  Figures.K[3] := Producer.K3;
  Figures.K[6] := Producer.K6;
  Figures.K[7] := Producer.K7;
  Figures.K[8] := Producer.K8;
  Figures.K[9] := Producer.K9;
  Figures.K[10] := Producer.K10;
end;

{ -------------------------------------------------------------------- rows }

function OneFraction(const Producer: TProducerFigures; Volume: Int64): TFraction;
begin
  Result := Whole(Volume) * Producer.ExactK1 * Producer.ExactK4;
end;

{ Section Rows: one rounding after each coefficient. In a single row (request 8 of document
  02) volume x k1 x k4 comes first, rounded once, and then the others in their order. }
procedure TakeProducts(const Producer: TProducerFigures; Volume: Int64;
  var Products: TCoefficients; var Ties: TTies);
var
  Number: Integer;
  Running: Int64; { millionths of a megawatt }

  procedure MultiplyBy(Coefficient: Int64);
  begin
    Running := Rounded(figProduct, Whole(Running) * Part(Coefficient, Million), Ties);
  end;

begin
  Running := Volume;
  for Number := 1 to 10 do
  begin
    if not Producer.AsOneFraction then
      MultiplyBy(Producer.K[Number])
    else if Number = 1 then
      Running := Rounded(figFraction, OneFraction(Producer, Volume), Ties)
    else if Number <> 4 then
      MultiplyBy(Producer.K[Number]);
    Products[Number] := Running;
  end;
end;

{ After the products one rounding for the share of the days covered (request 5 of document
  02), one more to the tenth. The share of a row that covers the month is 1 and changes
  nothing. }
procedure SettleRow(const Row: TRow; const Producer: TProducerFigures; DaysInMonth: Integer;
  var Figures: TRowFigures; var Ties: TTies);
begin
  TakeProducts(Producer, Figures.VolumeAfterCut * MillionthsInTenth, Figures.Products, Ties);
  Figures.ForDaysCovered := Rounded(figDays,
    Whole(Figures.Products[10]) * Part(DaysCovered(Row), DaysInMonth), Ties);
  Figures.ActualVolume := Rounded(figVolume,
    Whole(Figures.ForDaysCovered) / Whole(MillionthsInTenth), Ties);
  { The price is for a whole megawatt, the volume stands in tenths. }
  Figures.Payment := Rounded(figPayment,
    Part(Figures.ActualVolume, TenthsInMegawatt) * Whole(Row.Price), Ties);
end;

{ --------------------------------------------------------------- consumers }

{ Section Consumers. Nothing here goes below 0: the counted peak and the excess
  stop at 0 by the paper's own words, and the 5 percent are taken from the excess
  only where n is above 0, that is where p is 51 or more. Then the excess is at
  least 50.5 thousandths of the contract volume (or the contract volume is 0 and
  the excess is not), so it is above the 5 percent. }
procedure SettleConsumer(const Consumer: TConsumer; Days: Integer;
  var Figures: TConsumerFigures; var Ties: TTies);
var
  Contract, N, Bracket, SupplierFactor, GridFactor, Z: TFraction;
begin
  Figures.CountedPeak := Larger(Consumer.Peak - Figures.Credit, 0);
  Contract := Whole(Consumer.ContractVolume);
  Figures.Excess := LessNotBelowNought(Whole(Figures.CountedPeak), Part(105, 100) * Contract);
  Figures.P := ThousandthsOf(Figures.Excess, Contract, Ties);
  Figures.Band := BandOf(Figures.P);
  Figures.N := BandTable[Figures.Band].Factor;
  N := Part(Figures.N, 10);

  if IsNought(N) then
    Bracket := Contract
  else
    Bracket := Contract + N * (Figures.Excess - Part(5, 100) * Contract);
  SupplierFactor := Whole(1) + Whole(100) * Part(Consumer.SupplierMiningDays, Days);
  GridFactor := Whole(1) + Whole(100) * Part(Consumer.GridMiningDays, Days);
  Z := Part(Consumer.Z, 10);

  { The one rounding to a tenth. }
  Figures.ActualVolume := Rounded(figConsumerVolume,
    Bracket * SupplierFactor * GridFactor * Z, Ties);
  Figures.Charge := Rounded(figCharge,
    Part(Figures.ActualVolume, TenthsInMegawatt) * Whole(Consumer.Price), Ties);
end;

{ ------------------------------------------------------------- whole sheet }

procedure SettleProducers(const Sheet: TSheet; out Settlement: TSettlement);
var
  Number: Integer;
  H: Int64;
begin
  Settlement := Default(TSettlement);
  H := HoursInMonth(Sheet.Header);
  for Number := 0 to Sheet.Header.ProducerCount - 1 do
  begin
    TakeCut(Sheet, Number, Settlement);
    TakeControlAverage(Sheet.Header, Sheet.Producers[Number],
      Settlement.Producers[Number], Settlement.Ties);
    TakeOverUse(Sheet.Producers[Number], Settlement.Producers[Number], Settlement.Ties);
    TakeK1AndK4(Sheet, Number, Settlement.Producers[Number].AfterCut.T,
      Settlement.Producers[Number].AfterCut.S, Settlement);
    TakeK2(Sheet.Producers[Number], H, Settlement.Producers[Number], Settlement.Ties);
    TakeK5(Sheet.Producers[Number], H, Settlement.Producers[Number], Settlement.Ties);
    TakeGivenCoefficients(Sheet.Producers[Number], Settlement.Producers[Number]);
  end;
end;

procedure SettleRowsAndConsumers(const Sheet: TSheet; var Settlement: TSettlement);
var
  Number: Integer;
begin
  for Number := 0 to Sheet.Header.RowCount - 1 do
    with Sheet.Rows[Number] do
    begin
      SettleRow(Sheet.Rows[Number], Settlement.Producers[Producer], Sheet.Header.Days,
        Settlement.Rows[Number], Settlement.Ties);
      if not IsSupportRow(Sheet.Rows[Number]) then
        Settlement.Consumers[Consumer].Credit := Settlement.Consumers[Consumer].Credit
          + Settlement.Rows[Number].ActualVolume;
      Settlement.TotalPaid := Settlement.TotalPaid + Settlement.Rows[Number].Payment;
    end;

  for Number := 0 to Sheet.Header.ConsumerCount - 1 do
  begin
    SettleConsumer(Sheet.Consumers[Number], Sheet.Header.Days,
      Settlement.Consumers[Number], Settlement.Ties);
    Settlement.TotalCharged := Settlement.TotalCharged + Settlement.Consumers[Number].Charge;
  end;
end;

procedure Settle(const Sheet: TSheet; out Settlement: TSettlement);
begin
  SettleProducers(Sheet, Settlement);
  SettleRowsAndConsumers(Sheet, Settlement);
end;

end.
