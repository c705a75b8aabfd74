{ Marks of hours by column: which corners of request 7 of document 02 a sheet reaches.
  Nothing here changes a figure.

  A slip reads the producers' hours by another layout and settles the sheet by these
  powers; the numbers 8 to 18 are not tried again. A power so read can be any figure of
  four bytes: 744 of them in hundredths stay below 3.2 x 10^13, which Int64 holds. }
unit columnmarks;

{$mode objfpc}{$H+}{$R+}{$Q+}

interface

uses
  sheets, settlements;

{ Adds the marks of an accepted sheet, which has these bytes, to its line. }
procedure AddColumnMarks(var Line: string; const Bytes: TByteSequence; const Sheet: TSheet;
  const Settlement: TSettlement);

{ Adds those of a sheet refused by 9. }
procedure AddColumnMarksOf9(var Line: string; const Sheet: TSheet);

implementation

uses
  refusals, results, marks;

{ ----------------------------------------------------------- other layouts }

{ Each of the two series read where the other stands. }
function Exchanged(const Layout: TLayout; A, B: TSeries): TLayout;
begin
  Result := Layout;
  Result[A] := Layout[B];
  Result[B] := Layout[A];
end;

{ One series read so many bytes later. }
function MovedOn(const Layout: TLayout; Series: TSeries; ByteCount: Int64): TLayout;
begin
  Result := Layout;
  Result[Series].Start := Layout[Series].Start + ByteCount;
end;

{ ---------------------------------------------------- slips that would show }

{ What is read past the sheet's end is 0; no slip reads more than a power past it. }
function WithNoughtsAfter(const Bytes: TByteSequence): TByteSequence;
begin
  Result := Copy(Bytes);
  SetLength(Result, Length(Bytes) + PowerWidth);
end;

{ The result if all producers' hours were read so. }
function ResultByLayout(const Bytes: TByteSequence; const Sheet: TSheet;
  const Layout: TLayout): TByteSequence;
var
  Other: TSheet;
  Settlement: TSettlement;
begin
  Other := Sheet;
  ReadAllHours(WithNoughtsAfter(Bytes), Layout, Other);
  Settle(Other, Settlement);
  Result := ResultBytes(Other, Settlement);
end;

procedure AddColumnMarks(var Line: string; const Bytes: TByteSequence; const Sheet: TSheet;
  const Settlement: TSettlement);
var
  RightResult: TByteSequence;
  ByHour, ByColumn: TLayout;

  procedure Compare(const Mark: string; const Layout: TLayout);
  begin
    if Differ(ResultByLayout(Bytes, Sheet, Layout), RightResult) then AddMark(Line, Mark);
  end;

begin
  RightResult := ResultBytes(Sheet, Settlement);
  ByHour := LayoutOfHours(VersionOfDays, HoursInMonth(Sheet.Header));
  ByColumn := LayoutOfHours(VersionOfColumns, HoursInMonth(Sheet.Header));
  case Sheet.Header.Version of
    VersionOfDays:
      Compare('bycolumn', ByColumn);
    VersionOfColumns:
      begin
        Compare('hourbyhour', ByHour);
        Compare('possiblefirst', Exchanged(ByColumn, seriesWorking, seriesPossible));
        Compare('outsidefirst', Exchanged(ByColumn, seriesPossible, seriesOutsideUse));
        Compare('workinglast', Exchanged(ByColumn, seriesWorking, seriesOutsideUse));
        Compare('secondhour', MovedOn(ByColumn, seriesPossible, PowerWidth));
        Compare('secondbyte', MovedOn(ByColumn, seriesPossible, 1));
        Compare('thirdhour', MovedOn(ByColumn, seriesOutsideUse, PowerWidth));
        Compare('thirdbyte', MovedOn(ByColumn, seriesOutsideUse, 1));
      end;
  end;
end;

{ -------------------------------------------------------------- refused: 9 }

{ The same sheet with one series of a producer at 0 from that hour to the month's end. }
function WithNoughtsIn(const Sheet: TSheet; ProducerNumber: Integer; Series: TSeries;
  FirstHour: Integer): TSheet;
var
  Hour: Integer;
begin
  Result := Sheet;
  for Hour := FirstHour to HoursInMonth(Sheet.Header) - 1 do
    Result.Producers[ProducerNumber].Hours[Hour][Series] := 0;
end;

{ Where 9 would not apply without these powers, no other figure is too high. }
procedure AddColumnMarksOf9(var Line: string; const Sheet: TSheet);
var
  Number: Integer;
  Series: TSeries;
  LastHour: Integer;
begin
  if Sheet.Header.Version <> VersionOfColumns then Exit;
  LastHour := HoursInMonth(Sheet.Header) - 1;
  for Number := 0 to Sheet.Header.ProducerCount - 1 do
  begin
    for Series := Low(TSeries) to High(TSeries) do
      if not SomeCapacityTooHigh(WithNoughtsIn(Sheet, Number, Series, 0)) then
        AddMark(Line, '9column' + NumberText(Ord(Series) + 1));
    if not SomeCapacityTooHigh(WithNoughtsIn(Sheet, Number, seriesOutsideUse, LastHour)) then
      AddMark(Line, '9lasthour3');
  end;
end;

end.
