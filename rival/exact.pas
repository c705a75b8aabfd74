{ Exact numbers for the settlement: whole numbers not below 0, and fractions of
  two such numbers. A fraction is never shortened, except in its text, and never rounded,
  except by RoundedHalfUp, which is called only where the papers say so. }
unit exact;

{$mode objfpc}{$H+}{$R+}{$Q+}

interface

const
  MostGroups = 12; { 108 digits; the settlement needs fewer than 40. Going past them
                     would be a range error, never a wrong figure. }

type
  { A whole number, not below 0, in groups of nine digits, lowest group first.
    The highest group in use is not 0; the number 0 uses no group at all. }
  TNatural = record
    Used: Integer;
    Groups: array[0..MostGroups - 1] of Int64;
  end;

  { Over divided by Under; Under is never 0. }
  TFraction = record
    Over, Under: TNatural;
  end;

  { How a value came to its whole unit. No figure depends on it. }
  TWayRounded = (wayExact, wayDown, wayHalf, wayUp);

  TRounded = record
    Figure: QWord;
    Way: TWayRounded;
  end;

function Whole(Value: QWord): TFraction;
function Part(Over, Under: QWord): TFraction;
function IsNought(const A: TFraction): Boolean;

{ -1 if A is the smaller, 0, 1 if it is the larger. }
function CompareFractions(const A, B: TFraction): Integer;

operator + (const A, B: TFraction) Outcome: TFraction;
operator - (const A, B: TFraction) Outcome: TFraction; { A is not below B }
operator * (const A, B: TFraction) Outcome: TFraction;
operator / (const A, B: TFraction) Outcome: TFraction; { B is not 0 }

{ A less B, or 0 where B is the larger: the paper's "not below 0". }
function LessNotBelowNought(const A, B: TFraction): TFraction;

{ To the nearest whole unit, a half upward. ExactHalf tells whether the value
  lay exactly half a unit above a whole one. }
function RoundedHalfUp(const Value: TFraction; out ExactHalf: Boolean): QWord;

{ The same, with the way. }
function RoundedWithWay(const Value: TFraction): TRounded;

{ Shortened as far as it goes, `627000000/7`; a whole number without what is under it. }
function FractionText(const Value: TFraction): string;

implementation

uses
  SysUtils;

const
  GroupBase = 1000000000; { a group holds nine decimal digits }
  Nought: TNatural = (Used: 0; Groups: (0, 0, 0, 0, 0, 0, 0, 0, 0, 0, 0, 0));

{ ---------------------------------------------------------- whole numbers }

procedure DropLeadingNoughts(var Number: TNatural);
begin
  while (Number.Used > 0) and (Number.Groups[Number.Used - 1] = 0) do
    Number.Used := Number.Used - 1;
end;

function NaturalOf(Value: QWord): TNatural;
begin
  Result := Nought;
  while Value > 0 do
  begin
    Result.Groups[Result.Used] := Value mod GroupBase;
    Result.Used := Result.Used + 1;
    Value := Value div GroupBase;
  end;
end;

function QWordOf(const Value: TNatural): QWord;
var
  Group: Integer;
begin
  Result := 0;
  for Group := Value.Used - 1 downto 0 do
    Result := Result * QWord(GroupBase) + QWord(Value.Groups[Group]);
end;

{ -1, 0 or 1 }
function CompareNaturals(const A, B: TNatural): Integer;
var
  Group: Integer;
begin
  if A.Used < B.Used then Exit(-1);
  if A.Used > B.Used then Exit(1);
  for Group := A.Used - 1 downto 0 do
  begin
    if A.Groups[Group] < B.Groups[Group] then Exit(-1);
    if A.Groups[Group] > B.Groups[Group] then Exit(1);
  end;
  Result := 0;
end;

function SumOf(const A, B: TNatural): TNatural;
var
  Group, Most: Integer;
  Carry, Total: Int64;
begin
  Result := Nought;
  Most := A.Used;
  if B.Used > Most then Most := B.Used;
  Carry := 0;
  { Groups not in use are 0 in every number made by this unit. }
  for Group := 0 to Most - 1 do
  begin
    Total := A.Groups[Group] + B.Groups[Group] + Carry;
    Result.Groups[Group] := Total mod GroupBase;
    Carry := Total div GroupBase;
  end;
  Result.Used := Most;
  if Carry > 0 then
  begin
    Result.Groups[Most] := Carry;
    Result.Used := Most + 1;
  end;
end;

{ A is not below B. }
function DifferenceOf(const A, B: TNatural): TNatural;
var
  Group: Integer;
  Borrow, Left: Int64;
begin
  if CompareNaturals(A, B) < 0 then
    raise Exception.Create('a difference below 0 was asked for');
  Result := Nought;
  Borrow := 0;
  for Group := 0 to A.Used - 1 do
  begin
    Left := A.Groups[Group] - B.Groups[Group] - Borrow;
    Borrow := 0;
    if Left < 0 then
    begin
      Left := Left + GroupBase;
      Borrow := 1;
    end;
    Result.Groups[Group] := Left;
  end;
  Result.Used := A.Used;
  DropLeadingNoughts(Result);
end;

function ProductOf(const A, B: TNatural): TNatural;
var
  I, J: Integer;
  Carry, Total: Int64;
begin
  Result := Nought;
  if (A.Used = 0) or (B.Used = 0) then Exit;
  for I := 0 to A.Used - 1 do
  begin
    Carry := 0;
    for J := 0 to B.Used - 1 do
    begin
      { Below 10^9 + 10^18 + 10^9, so it fits. }
      Total := Result.Groups[I + J] + A.Groups[I] * B.Groups[J] + Carry;
      Result.Groups[I + J] := Total mod GroupBase;
      Carry := Total div GroupBase;
    end;
    if Carry > 0 then
      Result.Groups[I + B.Used] := Carry;
  end;
  Result.Used := A.Used + B.Used;
  if Result.Used > MostGroups then Result.Used := MostGroups;
  DropLeadingNoughts(Result);
end;

{ How often Divisor goes into Rest, where it is known to go less than
  GroupBase times. }
function TimesInto(const Rest, Divisor: TNatural): Int64;
var
  Low, High, Middle: Int64;
begin
  if Divisor.Used = 1 then
    { Rest is below 10^18 here, at most two groups. }
    Exit((Rest.Groups[1] * GroupBase + Rest.Groups[0]) div Divisor.Groups[0]);
  { A longer divisor: close in on the number from both sides. }
  Low := 0;
  High := GroupBase - 1;
  while Low < High do
  begin
    Middle := (Low + High + 1) div 2;
    if CompareNaturals(ProductOf(Divisor, NaturalOf(Middle)), Rest) > 0 then
      High := Middle - 1
    else
      Low := Middle;
  end;
  Result := Low;
end;

{ Long division as at school, with groups in place of digits. }
procedure DivideWithRest(const A, B: TNatural; out Quotient, Rest: TNatural);
var
  Group, Place: Integer;
  Times: Int64;
begin
  if B.Used = 0 then
    raise Exception.Create('a division by 0 was asked for');
  Quotient := Nought;
  Rest := Nought;
  for Group := A.Used - 1 downto 0 do
  begin
    { Bring down the next group. }
    for Place := Rest.Used downto 1 do
      Rest.Groups[Place] := Rest.Groups[Place - 1];
    Rest.Groups[0] := A.Groups[Group];
    Rest.Used := Rest.Used + 1;
    DropLeadingNoughts(Rest);
    Times := TimesInto(Rest, B);
    Quotient.Groups[Group] := Times;
    Rest := DifferenceOf(Rest, ProductOf(B, NaturalOf(Times)));
  end;
  Quotient.Used := A.Used;
  DropLeadingNoughts(Quotient);
end;

{ --------------------------------------------------------------- fractions }

function Whole(Value: QWord): TFraction;
begin
  Result.Over := NaturalOf(Value);
  Result.Under := NaturalOf(1);
end;

function Part(Over, Under: QWord): TFraction;
begin
  if Under = 0 then
    raise Exception.Create('a fraction over 0 was asked for');
  Result.Over := NaturalOf(Over);
  Result.Under := NaturalOf(Under);
end;

function IsNought(const A: TFraction): Boolean;
begin
  Result := A.Over.Used = 0;
end;

function CompareFractions(const A, B: TFraction): Integer;
begin
  Result := CompareNaturals(ProductOf(A.Over, B.Under), ProductOf(B.Over, A.Under));
end;

operator + (const A, B: TFraction) Outcome: TFraction;
begin
  if CompareNaturals(A.Under, B.Under) = 0 then
  begin
    Outcome.Over := SumOf(A.Over, B.Over);
    Outcome.Under := A.Under;
  end
  else
  begin
    Outcome.Over := SumOf(ProductOf(A.Over, B.Under), ProductOf(B.Over, A.Under));
    Outcome.Under := ProductOf(A.Under, B.Under);
  end;
end;

operator - (const A, B: TFraction) Outcome: TFraction;
begin
  if CompareNaturals(A.Under, B.Under) = 0 then
  begin
    Outcome.Over := DifferenceOf(A.Over, B.Over);
    Outcome.Under := A.Under;
  end
  else
  begin
    Outcome.Over := DifferenceOf(ProductOf(A.Over, B.Under), ProductOf(B.Over, A.Under));
    Outcome.Under := ProductOf(A.Under, B.Under);
  end;
end;

operator * (const A, B: TFraction) Outcome: TFraction;
begin
  Outcome.Over := ProductOf(A.Over, B.Over);
  Outcome.Under := ProductOf(A.Under, B.Under);
end;

operator / (const A, B: TFraction) Outcome: TFraction;
begin
  if B.Over.Used = 0 then
    raise Exception.Create('a division by 0 was asked for');
  Outcome.Over := ProductOf(A.Over, B.Under);
  Outcome.Under := ProductOf(A.Under, B.Over);
end;

function LessNotBelowNought(const A, B: TFraction): TFraction;
begin
  if CompareFractions(A, B) <= 0 then
    Result := Whole(0)
  else
    Result := A - B;
end;

function RoundedHalfUp(const Value: TFraction; out ExactHalf: Boolean): QWord;
var
  Quotient, Rest: TNatural;
  TwiceTheRest: Integer; { compared with the divisor }
begin
  DivideWithRest(Value.Over, Value.Under, Quotient, Rest);
  TwiceTheRest := CompareNaturals(SumOf(Rest, Rest), Value.Under);
  ExactHalf := TwiceTheRest = 0;
  if TwiceTheRest >= 0 then
    Quotient := SumOf(Quotient, NaturalOf(1));
  Result := QWordOf(Quotient);
end;

function RoundedWithWay(const Value: TFraction): TRounded;
var
  ExactHalf: Boolean;
begin
  Result.Figure := RoundedHalfUp(Value, ExactHalf);
  if ExactHalf then
    Result.Way := wayHalf
  else
    case CompareFractions(Whole(Result.Figure), Value) of
      -1: Result.Way := wayDown;
      0: Result.Way := wayExact;
    else
      Result.Way := wayUp;
    end;
end;

{ -------------------------------------------------------------------- text }

{ Nine digits for every group below the highest. }
function NaturalText(const Value: TNatural): string;
var
  Group: Integer;
begin
  if Value.Used = 0 then Exit('0');
  Result := IntToStr(Value.Groups[Value.Used - 1]);
  for Group := Value.Used - 2 downto 0 do
    Result := Result + Format('%.9d', [Value.Groups[Group]]);
end;

{ The greatest number that goes into both; the divisor of one division is what is divided
  in the next, until no rest is left. }
function GreatestCommonDivisor(A, B: TNatural): TNatural;
var
  Quotient, Rest: TNatural;
begin
  while B.Used > 0 do
  begin
    DivideWithRest(A, B, Quotient, Rest);
    A := B;
    B := Rest;
  end;
  Result := A;
end;

function FractionText(const Value: TFraction): string;
var
  Common, Over, Under, Rest: TNatural;
begin
  Common := GreatestCommonDivisor(Value.Over, Value.Under);
  DivideWithRest(Value.Over, Common, Over, Rest);
  DivideWithRest(Value.Under, Common, Under, Rest);
  Result := NaturalText(Over);
  if CompareNaturals(Under, NaturalOf(1)) <> 0 then
    Result := Result + '/' + NaturalText(Under);
end;

end.
