⍝ A text workshop: words, counts, searching and replacing, lines and columns.
⍝
⍝ A text is a vector of characters, and a list of words or lines a matrix, a row for each, with blanks behind.
⍝ ORDER is the order of characters in sorted lists; characters that it hasn't come last.

CAPITALS←'ABCDEFGHIJKLMNOPQRSTUVWXYZ'
SMALLS←'abcdefghijklmnopqrstuvwxyz'
ORDER←' 0123456789',,⍉2 26⍴CAPITALS,SMALLS

∇Z←P TRANSLATE T;I
⍝ T, of any shape, with the character P[2;K] for each P[1;K].
Z←,T
I←(Z∊P[1;])/⍳⍴Z
Z[I]←P[2;P[1;]⍳Z[I]]
Z←(⍴T)⍴Z
∇

∇Z←UPPER T
⍝ T with capitals for small letters.
Z←(2 26⍴SMALLS,CAPITALS)TRANSLATE T
∇

∇Z←LOWER T
⍝ T with small letters for capitals.
Z←(2 26⍴CAPITALS,SMALLS)TRANSLATE T
∇

∇Z←N CIPHER T
⍝ T with each letter moved on by N places of the alphabet; ¯1×N brings it back.
Z←(2 52⍴CAPITALS,SMALLS,(N⌽CAPITALS),N⌽SMALLS)TRANSLATE T
∇

∇Z←A KEEP T
⍝ T with blanks for all characters that aren't in A.
T←,T
Z←(T∊A)\(T∊A)/T
∇

∇Z←SQUEEZE T;B
⍝ T without blanks at its ends, and with one where there are several: a blank stays before what is none.
T←' ',T
B←T≠' '
Z←1↓(B∨1⌽B)/T
∇

∇Z←C SPLIT T;B;L
⍝ The pieces of T between the characters C, a row for each. L are their lengths.
T←(,T),C
B←T≠C
L←(~B)/⍳⍴B
L←L-1+0,¯1↓L
L←L∘.≥⍳⌈/0,L
Z←(⍴L)⍴(,L)\B/T
∇

∇Z←WORDS T
⍝ The words of T, which stand between blanks.
Z←' ' SPLIT SQUEEZE T
Z←(∨/Z≠' ')⌿Z
∇

∇Z←JOIN M
⍝ The rows of M as one text, with single blanks.
Z←SQUEEZE,M,' '
∇

∇Z←SORT M;K
⍝ The rows of M in order: sorted by each column from the last on, those that are equal there stay in their order.
Z←M
K←(⍴M)[2]
NEXT:→(K=0)/0
Z←Z[⍋ORDER⍳Z[;K];]
K←K-1
→NEXT
∇

∇Z←UNIQUE M
⍝ The rows of M in order, each once: those that differ from the one before.
Z←SORT M
Z←(FIRSTS Z)⌿Z
∇

∇Z←FIRSTS M
⍝ 1 for each row of M that differs from the one before.
Z←(1↑⍴M)↑1,∨/(1 0↓M)≠¯1 0↓M
∇

∇Z←TALLY M;F;N
⍝ How often each row stands in M, and the row behind it, the most frequent first.
M←SORT M
F←FIRSTS M
N←F/⍳⍴F
N←(1↓N,1+⍴F)-N
Z←(⍕((⍴N),1)⍴N),' ',F⌿M
Z←Z[⍒N;]
∇

∇Z←A COUNTS T
⍝ How often each character of A stands in T.
Z←+/A∘.=,T
∇

∇Z←BARS N
⍝ A bar for each number of N.
Z←' ⎕'[1+N∘.≥⍳⌈/0,N]
∇

∇Z←P FIND T
⍝ 1 at each place of T where P begins: row K says where P[K] stands, and is moved to where P would begin then.
P←,P
T←,T
Z←∧⌿(¯1+⍳⍴P)⌽P∘.=T
Z←Z∧(⍳⍴T)≤1+(⍴T)-⍴P
∇

∇Z←P REPLACE T;A;B;K
⍝ T with B for each A, from the left, where P is /A/B with any character in the stroke's place.
K←(1↓P)⍳1↑P
A←(K-1)↑1↓P
B←(K+1)↓P
T←,T
Z←''
NEXT:K←(A FIND T)⍳1
→((0=⍴A)∨K>⍴T)/END
Z←Z,((K-1)↑T),B
T←(K+(⍴A)-1)↓T
→NEXT
END:Z←Z,T
∇

∇Z←N FOLD T;K
⍝ T in lines of at most N characters, which end at blanks; a word that is longer is cut.
N←N⌈1
Z←(0,N)⍴' '
T←SQUEEZE T
NEXT:→(0=⍴T)/0
K←⌈/0,(' '=(N+1)↑T)/⍳N+1
→(K>0)/BLANK
Z←Z,[1]N↑T
T←N↓T
→NEXT
BLANK:Z←Z,[1]N↑(K-1)↑T
T←K↓T
→NEXT
∇

∇Z←LEFT M
⍝ The rows of M without blanks before.
Z←(+/∧\M=' ')⌽M
∇

∇Z←RIGHT M
⍝ The rows of M without blanks behind, at the right.
Z←(-+/∧\⌽M=' ')⌽M
∇

∇Z←CENTER M;N
⍝ The rows of M in the middle, one blank more behind where they don't come out even.
M←LEFT M
N←+/∧\⌽M=' '
Z←(-(N-2|N)÷2)⌽M
∇

∇Z←N COLUMNS M;R;W
⍝ The rows of M in N columns, down the first one first, with two blanks between.
W←2+(⍴M)[2]
R←(⍴M)[1]+N-1
R←(R-N|R)÷N
Z←2 1 3⍉(N,R,W)⍴((N×R),W)↑M
Z←0 ¯2↓(R,N×W)⍴Z
∇

∇Z←PALINDROME T
⍝ 1 where the letters of T read the same from both ends.
T←UPPER(T∊CAPITALS,SMALLS)/T
Z←∧/T=⌽T
∇
