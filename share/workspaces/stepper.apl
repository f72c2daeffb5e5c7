⍝ A shop's bill, left half-done: whoever loads it finds a call that is suspended, the calls and the statement that wait
⍝ for it, and all their names, and goes on.

ORDER←4 12⍴'3×250       1200 LESS 25333 LESS 10 2×480       '
SHIPPING←490

∇Z←PRICE LESS PERCENT;OFF
⍝ A price with so many in a hundred taken off.
OFF←PRICE×PERCENT
Z←PRICE-OFF÷100
∇

∇Z←ITEM I
⍝ What item I of the order comes to: its text is executed.
Z←⍎ORDER[I;]
∇

∇Z←BILL ORDER;I
⍝ The sum of an order's items, each of which is shown, and of the shipping.
Z←I←0
NEXT:I←I+1
Z←(⎕←ITEM I)+Z
→(I<1↑⍴ORDER)/NEXT
Z←Z+SHIPPING
∇

⍝ A stop before the last line of BILL. The answer, an empty line, is the stops that were set before.
6 ⎕STOP 'BILL'
⍝>

⍝ The third item's reduction comes to a fraction of a cent, which no whole number is.
'TO PAY: ',⍕BILL ORDER
⍝> 750
⍝> 900
⍝> DOMAIN ERROR
⍝> LESS[3] Z←PRICE-OFF÷100
⍝>                    ^
