⍝ A calendar: days between dates, weekdays, weeks, Easter, and months and years as tables.
⍝
⍝ A date is one whole number, YYYYMMDD, and a month is YYYYMM, both of the Gregorian calendar, which is carried back
⍝ to before it began. A day is a number that counts: day 1 is Monday, the first of January of the year 1. All functions
⍝ but MONTH, YEAR and SPELLED go through arrays of any shape.

DAYNAMES←7 9⍴'Monday   Tuesday  WednesdayThursday Friday   Saturday Sunday   '
MONTHNAMES←6 9⍴'January  February March    April    May      June     '
MONTHNAMES←MONTHNAMES,[1]6 9⍴'July     August   SeptemberOctober  November December '

∇Z←A DIV B
⍝ The floor of A over B.
Z←(A-B|A)÷B
∇

∇Z←LEAP Y
⍝ 1 for leap years.
Z←(0=4|Y)-(0=100|Y)-0=400|Y
∇

∇Z←DAYOF D;Y;M
⍝ The days of dates. Years are counted from March on, so that the leap day is the last.
Y←D DIV 10000
M←100|D DIV 100
Y←Y-M≤2
M←12|M-3
Z←(365×Y)+(Y DIV 4)-(Y DIV 100)-Y DIV 400
Z←Z+((2+153×M)DIV 5)+(100|D)-306
∇

∇Z←DATEOF N;C;Y;M
⍝ The dates of days: centuries, years and months from March on, what is left over each time.
N←N+305
C←(3+4×N)DIV 146097
N←N-(146097×C)DIV 4
Y←(3+4×N)DIV 1461
N←N-(1461×Y)DIV 4
M←(2+5×N)DIV 153
N←N-(2+153×M)DIV 5
Y←Y+(100×C)+M≥10
Z←(10000×Y)+(100×1+12|M+2)+N+1
∇

∇Z←ISDATE D
⍝ 1 for dates that there are.
Z←D=DATEOF DAYOF D
∇

∇Z←A DAYSTO B
⍝ How many days it is from A to B.
Z←(DAYOF B)-DAYOF A
∇

∇Z←A YEARSTO B
⍝ How many whole years it is from A to B: an age.
Z←(B-A)DIV 10000
∇

∇Z←N DAYSAFTER D
⍝ The dates N days after D, before it where N is negative.
Z←DATEOF N+DAYOF D
∇

∇Z←N MONTHSAFTER D;M
⍝ The same day N months after D, or the last one of a shorter month.
M←N+(12×D DIV 10000)+¯1+100|D DIV 100
M←(100×M DIV 12)+1+12|M
Z←(100×M)+(100|D)⌊DAYSIN M
∇

∇Z←DAYSIN M
⍝ How many days months have.
Z←(DAYOF 1+100×M+1+88×12=100|M)-DAYOF 1+100×M
∇

∇Z←WEEKDAY D
⍝ 1 for Mondays to 7 for Sundays.
Z←1+7|¯1+DAYOF D
∇

∇Z←WEEK D;T
⍝ The week of the year as YYYYWW. A week is of the year that has its Thursday.
T←(DAYOF D)+4-WEEKDAY D
D←DATEOF T
Z←(100×D DIV 10000)+1+(¯1+DAYINYEAR D)DIV 7
∇

∇Z←DAYINYEAR D
⍝ 1 for the first of January, and so on.
Z←1+(101+10000×D DIV 10000)DAYSTO D
∇

∇Z←A WORKDAYS B
⍝ How many days from A on and before B are a Monday to a Friday: five a week, and what is left of a week.
A←¯1+DAYOF A
B←¯1+DAYOF B
Z←((5×B DIV 7)+5⌊7|B)-(5×A DIV 7)+5⌊7|A
∇

∇Z←EASTER Y;C;E;N
⍝ Easter Sundays: those after the full moon of the church's reckoning, in which E is the moon's age at the new year.
C←1+Y DIV 100
E←30|20+(11×1+19|Y)+(¯5+(5+8×C)DIV 25)-¯12+(3×C)DIV 4
E←E+(E=24)∨(E=25)∧10<19|Y
N←44-E
N←N+30×N<21
N←N+DAYOF 300+10000×Y
Z←DATEOF N+7-7|N
∇

∇Z←SPELLED D;N
⍝ One date in words.
Z←DAYNAMES[WEEKDAY D;]
N←MONTHNAMES[100|D DIV 100;]
Z←((Z≠' ')/Z),' ',(⍕100|D),' ',((N≠' ')/N),' ',⍕D DIV 10000
∇

∇Z←MONTH M;N;T
⍝ One month as a table of its weeks, 8 lines of 20 characters.
N←DAYSIN M
Z←((¯1+WEEKDAY 1+100×M),3)⍴' '
Z←Z,[1]' ',⍕(N,1)⍴⍳N
Z←0 1↓6 21⍴42 3↑Z
T←MONTHNAMES[100|M;]
T←((T≠' ')/T),' ',⍕M DIV 100
T←20↑(((20-⍴T)DIV 2)⍴' '),T
Z←T,[1]'Mo Tu We Th Fr Sa Su',[1]Z
∇

∇Z←YEAR Y;M
⍝ One year as a table of its months, three abreast.
Z←0 8 20⍴' '
M←100×Y
NEXT:M←M+1
Z←Z,[1]MONTH M
→(12>100|M)/NEXT
Z←1 3 2 4⍉4 3 9 22↑4 3 8 20⍴Z
Z←¯1 ¯2↓36 66⍴Z
∇
