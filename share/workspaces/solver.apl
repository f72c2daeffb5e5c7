⍝ A solver of linear equations over whole numbers, whose solutions are fractions.
⍝
⍝ A fraction is a pair, the numerator and the denominator, in lowest terms and with a denominator above 0. An array of
⍝ fractions has them along a new first axis, so that a vector of fractions is shown as fractions are written. The matrices
⍝ of equations are of whole numbers. What passes 64 bits on the way is LIMIT ERROR; nothing is rounded.

∇Z←A OVER B;G
⍝ The fractions A over B. Where B has a 0 it is DOMAIN ERROR, as ÷×B is.
A←A+0×B
B←B+0×A
G←(÷×B)×A GCD B
Z←(2,⍴A)⍴(,A÷G),,B÷G
∇

∇Z←NUM F
⍝ The numerators of fractions.
Z←(1↓⍴F)⍴F
∇

∇Z←DEN F
⍝ The denominators of fractions.
Z←(1↓⍴F)⍴(×/1↓⍴F)↓,F
∇

∇Z←E PLUS F;D
⍝ Sums of fractions.
D←(DEN E)LCM DEN F
Z←(((NUM E)×D÷DEN E)+(NUM F)×D÷DEN F)OVER D
∇

∇Z←E MINUS F
⍝ Differences of fractions.
Z←E PLUS(-NUM F)OVER DEN F
∇

∇Z←E TIMES F
⍝ Products of fractions.
Z←((NUM E)×NUM F)OVER(DEN E)×DEN F
∇

∇Z←E DIVIDED F
⍝ Quotients of fractions.
Z←((NUM E)×DEN F)OVER(DEN E)×NUM F
∇

∇Z←COMMON F;D
⍝ The least common denominator of fractions.
D←,DEN F
Z←1
NEXT:→(0=⍴D)/0
Z←Z LCM D[1]
D←1↓D
→NEXT
∇

∇Z←WRITTEN F;D
⍝ A vector of fractions as rows of characters, whole ones without a denominator.
D←⍕((⍴DEN F),1)⍴DEN F
D←'/',(+/∧\D=' ')⌽D
Z←(⍕((⍴NUM F),1)⍴NUM F),(1≠DEN F)⍀(1≠DEN F)⌿D
∇

∇Z←N DECIMALS F;D;R
⍝ One fraction as a text with N decimals; what comes behind them is left off.
D←DEN F
R←|NUM F
Z←((0>NUM F)/'¯'),(⍕(R-D|R)÷D),(N>0)/'.'
NEXT:→(N≤0)/0
R←10×D|R
Z←Z,⍕(R-D|R)÷D
N←N-1
→NEXT
∇

∇Z←ECHELON M;C;D;K;R
⍝ M in reduced echelon form, without fractions (Bareiss): all pivots are one number, which is alone in its column. The
⍝ division by the pivot before, D, is always exact. R rows are done, and a row that makes room for a pivot changes its sign.
Z←M
D←1
R←C←0
NEXT:C←C+1
→((C>(⍴M)[2])∨R=(⍴M)[1])/0
K←(0≠R↓Z[;C])⍳1
→(K>(⍴M)[1]-R)/NEXT
R←R+1
K←K+R-1
→(K=R)/PIVOT
Z[R,K;]←Z[K,R;]
Z[K;]←-Z[K;]
PIVOT:K←Z[R;]
Z←((K[C]×Z)-Z[;C]∘.×K)÷D
Z[R;]←K
D←K[C]
→NEXT
∇

∇Z←RANK M
⍝ How many rows of a matrix are independent.
Z←+/∨/0≠ECHELON M
∇

∇Z←SQUARE A
⍝ 1 for a square matrix; else it says so.
Z←∧/(2=⍴⍴A),(⍴A)=⌽⍴A
→Z/0
'THE MATRIX ISN''T SQUARE'
∇

∇Z←CORNER M
⍝ The last element of a matrix's diagonal, and 1 of an empty matrix.
M←1 1⍉M
Z←×/(-0<⍴M)↑M
∇

∇Z←DET A
⍝ The determinant of a square matrix.
→(~SQUARE A)/0
Z←CORNER ECHELON A
∇

∇Z←B SOLVE A;D;M;N
⍝ The fractions X for which A times X is B, a vector or columns of a matrix; or why there is no one solution.
→(~SQUARE A)/0
N←(⍴A)[1]
M←ECHELON A,B
D←CORNER M
→(D=0)/SINGULAR
Z←((⍴B)⍴(0,N)↓M)OVER D
→0
SINGULAR:M←(~∨/0≠(N,N)↑M)⌿M
→(∨/,0≠(0,N)↓M)/NONE
'THE MATRIX IS SINGULAR: MANY SOLUTIONS'
→0
NONE:'THE MATRIX IS SINGULAR: NO SOLUTION'
∇

∇Z←KERNEL A;D;F;G;I;M
⍝ Columns of whole numbers, each a solution X of 0=A+.×X: the sums of their multiples are all the solutions.
M←ECHELON A
F←~∨⌿<\0≠M
D←1↑((,<\0≠M)/,M),1
M←(∨/0≠M)⌿M
Z←((~F)⍀-F/M)+F⍀D×IDENTITY+/F
G←(⍴Z)[2]⍴0
I←1
NEXT:→(I>(⍴Z)[1])/END
G←G GCD Z[I;]
I←I+1
→NEXT
END:Z←Z÷(⍴Z)⍴G
∇

∇Z←A APPLIED X;D
⍝ A+.×X for a matrix of whole numbers and fractions X.
D←COMMON X
Z←(A+.×(NUM X)×D÷DEN X)OVER D
∇

∇Z←IDENTITY N
⍝ The matrix of 1s on the diagonal.
Z←(⍳N)∘.=⍳N
∇

∇Z←A GCD B;R
⍝ The greatest common divisors of A and B, by Euclid's way; it is 0 of two zeros.
Z←(|A)+0×B
B←(|B)+0×A
NEXT:→(∧/,B=0)/0
R←B|Z
Z←B+Z×B=0
B←R×B≠0
→NEXT
∇

∇Z←A LCM B
⍝ The least common multiples of A and B; where one is 0 it is 0.
Z←(|A)×(|B)÷A GCD B
∇
