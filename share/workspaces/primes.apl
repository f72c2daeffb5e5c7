⍝ Primes and factors: sieves, divisors, greatest common divisors, powers by a modulus.
⍝
⍝ What takes a number apart divides it by all primes through its root, so that numbers go to 1000000000000. The others go
⍝ as far as products fit 64 bits. GCD, LCM, ISPRIME and TOPOWER go through arrays of any shape; the others take one number.

LARGEST←1000000000000

∇Z←FITS N
⍝ 1 where all of N are from 1 through LARGEST; else it says so.
Z←∧/(,N≥1)∧,N≤LARGEST
→Z/0
'ONLY NUMBERS FROM 1 THROUGH ',⍕LARGEST
∇

∇Z←ROOT N;T
⍝ The floor of the square root, by Newton's way, which comes down from above.
T←N⌊3037000500
NEXT:Z←T
→(Z<2)/0
T←Z+(N-Z|N)÷Z
T←(T-2|T)÷2
→(T<Z)/NEXT
∇

∇Z←PRIMESTO N;P
⍝ The primes through N: the sieve of Eratosthenes. N is at most 1000000.
Z←1<⍳0⌈N
P←2
NEXT:→(N<P×P)/END
Z[P×(P-1)↓⍳(N-P|N)÷P]←0
P←P+(P↓Z)⍳1
→NEXT
END:Z←Z/⍳⍴Z
∇

∇Z←ISPRIME N;P
⍝ 1 for primes: above 1, and without a prime below that divides.
→(~FITS 1⌈N)/0
P←PRIMESTO ROOT⌈/1,,N
Z←(N>1)∧~∨⌿(0=P∘.|N)∧P∘.<N
∇

∇Z←NEXTPRIME N;P
⍝ The first prime above N. None is as far as 1000 away.
→(~FITS 1⌈N)/0
Z←1⌈N
P←PRIMESTO ROOT Z+1000
NEXT:Z←Z+1
→(∨/(0=P|Z)∧P<Z)/NEXT
∇

∇Z←FACTORS N;P
⍝ The prime factors of N, ascending, each as often as it divides.
→(~FITS N)/0
P←PRIMESTO ROOT N
Z←⍳0
NEXT:P←(0=P|N)/P
Z←Z,P
N←N÷×/P
→(0<⍴P)/NEXT
Z←Z,(N>1)/N
Z←Z[⍋Z]
∇

∇Z←POWERS N;F;P
⍝ The primes that divide N, and below each how often it does.
→(~FITS N)/0
F←FACTORS N
P←(F≠0,¯1↓F)/F
Z←(2,⍴P)⍴P,+/P∘.=F
∇

∇Z←DIVISORS N;P;I
⍝ The divisors of N, ascending: all products of powers of its primes.
→(~FITS N)/0
P←POWERS N
Z←,1
I←1
NEXT:→(I>(⍴P)[2])/END
Z←,Z∘.×P[1;I]*0,⍳P[2;I]
I←I+1
→NEXT
END:Z←Z[⍋Z]
∇

∇Z←TOTIENT N;P
⍝ How many numbers from 1 through N have no divisor in common with it but 1.
→(~FITS N)/0
P←POWERS N
Z←×/(P[1;]-1)×P[1;]*P[2;]-1
∇

∇Z←A GCD B;R
⍝ The greatest common divisors of A and B, by Euclid's way; it is 0 of two zeros.
Z←(|A)+0×B
B←(|B)+0×A
NEXT:→(∧/,B=0)/0
R←B|Z
Z←B+Z×B=0
B←R×B≠0
→NEXT
∇

∇Z←A LCM B
⍝ The least common multiples of A and B; where one is 0 it is 0.
Z←(|A)×(|B)÷A GCD B
∇

∇Z←A INVERSE M;R;S
⍝ The number from 0 whose product with A is 1 modulo M, if A and M have no divisor in common.
R←M,M|A
S←0 1
NEXT:→(R[2]=0)/END
S←S[2],S[1]-S[2]×(R[1]-R[2]|R[1])÷R[2]
R←R[2],R[2]|R[1]
→NEXT
END:→(R[1]=1)/ONE
'THERE IS NONE: BOTH ARE MULTIPLES OF ',⍕R[1]
→0
ONE:Z←M|S[1]
∇

∇Z←B TOPOWER P;E;M
⍝ B to the power P[1] modulo P[2], which is from 1 through 3037000499: squares of B for the binary digits of the power.
E←P[1]
M←P[2]
→(E<0)/NONE
Z←M|1+0×B
NEXT:→(E=0)/0
B←M|B
→(0=2|E)/EVEN
Z←M|Z×B
EVEN:E←(E-2|E)÷2
B←B×B
→NEXT
NONE:'THE POWER IS BELOW 0'
∇
