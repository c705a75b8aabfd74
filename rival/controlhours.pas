{ Control hours, document 01's section of that name, and the average of a power over
  hours of the month: of outside use in settlements.pas, to a hundredth since request 6 of
  document 02, and of net power in complexes.pas, to a tenth.

  Figures are kept in Int64: a power is at most 100,000 tenths and a month has at most
  744 hours, so no sum passes 74,400,000 tenths, or 744,000,000 hundredths. }
unit controlhours;

{$mode objfpc}{$H+}{$R+}{$Q+}

interface

uses
  sheets;

const
  FirstControlHour = 17;
  LastControlHour = 22;

  HundredthsInTenth = 10; { of a megawatt }

type
  { A power for each hour, from hour 0 of day 1, in tenths of a megawatt. }
  TPowers = array of Int64;

  { Which hours of the month are counted; none past its end. }
  TCountedHours = array[0..MostHours - 1] of Boolean;

  { The unit that an average is rounded to, of a megawatt. }
  TFineness = (toTenth, toHundredth);

  TAverage = record
    Hours: Int64;       { how many are counted }
    Sum: Int64;         { of the powers in these hours, tenths }
    Figure: Int64;      { rounded, in the unit asked for; 0 if no hour is counted }
    ExactHalf: Boolean; { it lay exactly half way between two of these units }
  end;

function IsWeekend(const Header: THeader; Day: Integer): Boolean;
function IsHoliday(const Header: THeader; Day: Integer): Boolean;

{ Monday to Friday without the holidays. }
function IsControlDay(const Header: THeader; Day: Integer): Boolean;

{ Counts the hours First to Last of one day too. }
procedure CountHours(var Counted: TCountedHours; Day, First, Last: Integer);

function ControlHoursOf(const Header: THeader): TCountedHours;

{ Both are rounded once, from the exact average. }
function AverageOf(Sum, Hours: Int64; Fineness: TFineness): TAverage;
function AverageOver(const Counted: TCountedHours; const Powers: TPowers;
  Fineness: TFineness): TAverage;

implementation

uses
  exact;

const
  Friday = 5;

  UnitsInTenth: array[TFineness] of Int64 = (1, HundredthsInTenth);

{ -------------------------------------------------------------------- days }

function IsWeekend(const Header: THeader; Day: Integer): Boolean;
var
  Weekday: Integer;
begin
  Weekday := (Header.FirstWeekday - 1 + Day - 1) mod 7 + 1;
  Result := Weekday > Friday;
end;

function IsHoliday(const Header: THeader; Day: Integer): Boolean;
begin
  Result := (Header.Holidays shr (Day - 1)) and 1 = 1;
end;

function IsControlDay(const Header: THeader; Day: Integer): Boolean;
begin
  Result := not IsWeekend(Header, Day) and not IsHoliday(Header, Day);
end;

{ ------------------------------------------------------------------- hours }

procedure CountHours(var Counted: TCountedHours; Day, First, Last: Integer);
var
  Hour: Integer;
begin
  for Hour := First to Last do
    Counted[(Day - 1) * HoursInDay + Hour] := True;
end;

function ControlHoursOf(const Header: THeader): TCountedHours;
var
  Day: Integer;
begin
  Result := Default(TCountedHours);
  for Day := 1 to Header.Days do
    if IsControlDay(Header, Day) then
      CountHours(Result, Day, FirstControlHour, LastControlHour);
end;

{ ----------------------------------------------------------------- average }

function AverageOf(Sum, Hours: Int64; Fineness: TFineness): TAverage;
begin
  Result.Hours := Hours;
  Result.Sum := Sum;
  Result.Figure := 0;
  Result.ExactHalf := False;
  if Hours > 0 then
    Result.Figure := RoundedHalfUp(Whole(UnitsInTenth[Fineness] * Sum) / Whole(Hours),
      Result.ExactHalf);
end;

function AverageOver(const Counted: TCountedHours; const Powers: TPowers;
  Fineness: TFineness): TAverage;
var
  Hour: Integer;
  Sum, Hours: Int64;
begin
  Sum := 0;
  Hours := 0;
  for Hour := 0 to MostHours - 1 do
    if Counted[Hour] then
    begin
      Hours := Hours + 1;
      Sum := Sum + Powers[Hour];
    end;
  Result := AverageOf(Sum, Hours, Fineness);
end;

end.
