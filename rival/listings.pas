{ The listing, as document 01's section Listing asks for it, and that of the 2015 text in
  the same units and form. }
unit listings;

{$mode objfpc}{$H+}{$R+}{$Q+}

interface

uses
  sheets, settlements, texts2015;

{ Figures as text: tenths with one decimal, tiyn as tenge with two. }
function TenthsText(Tenths: QWord): string;
function TengeText(Tiyn: QWord): string;

procedure WriteListing(var Paper: Text; const Sheet: TSheet; const Settlement: TSettlement);
procedure WriteListing2015(var Paper: Text; const Sheet: TSheet;
  const Settlement: TSettlement2015);
procedure WriteRefusal(var Paper: Text; Number: Integer);

implementation

const
  LineFeed = #10;

function WholeText(Value: QWord): string;
begin
  Str(Value, Result);
end;

function TenthsText(Tenths: QWord): string;
begin
  Result := WholeText(Tenths div 10) + '.' + WholeText(Tenths mod 10);
end;

function TengeText(Tiyn: QWord): string;
begin
  Result := WholeText(Tiyn div 100) + '.'
    + WholeText(Tiyn mod 100 div 10) + WholeText(Tiyn mod 10);
end;

procedure WriteListing(var Paper: Text; const Sheet: TSheet; const Settlement: TSettlement);
var
  Number: Integer;
begin
  for Number := 0 to Sheet.Header.RowCount - 1 do
    with Settlement.Rows[Number] do
      Write(Paper, 'R', Number, ' ', TenthsText(VolumeAfterCut), ' ',
        TenthsText(ActualVolume), ' ', TengeText(Payment), LineFeed);
  for Number := 0 to Sheet.Header.ConsumerCount - 1 do
    with Settlement.Consumers[Number] do
      { Thousandths are tenths of a percent. }
      Write(Paper, 'C', Number, ' ', TenthsText(Credit), ' ', TenthsText(P), ' ',
        TenthsText(N), ' ', TenthsText(ActualVolume), ' ', TengeText(Charge), LineFeed);
  Write(Paper, 'T ', TengeText(Settlement.TotalPaid), ' ',
    TengeText(Settlement.TotalCharged), LineFeed);
end;

procedure WriteListing2015(var Paper: Text; const Sheet: TSheet;
  const Settlement: TSettlement2015);
var
  Number: Integer;
begin
  for Number := 0 to Sheet.Header.ConsumerCount - 1 do
    with Settlement[Number] do
      Write(Paper, 'C', Number, ' ', TenthsText(Factor), ' ',
        TenthsText(Volume.Figure), ' ', TengeText(Charge.Figure), LineFeed);
end;

procedure WriteRefusal(var Paper: Text; Number: Integer);
begin
  Write(Paper, 'N', Number, LineFeed);
end;

end.
