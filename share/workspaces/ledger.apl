⍝ A ledger with double entry: accounts, entries whose debits and credits are equal, balances and statements.
⍝
⍝ ACCOUNTS are the numbers of the accounts, ascending, and NAMES their names. The first of a number's four digits is
⍝ its kind: 1 what is owned, 2 what is owed, 3 capital, 4 income, 5 expenses. JOURNAL has a row for each line of each
⍝ entry: the entry's number, its day as YYYYMMDD, the account, and the amount in hundredths, above 0 for a debit and
⍝ below for a credit. NOTES has the text of each entry. DAY is the day of entries that are posted from now on.

ACCOUNTS←⍳0
NAMES←0 16⍴' '
JOURNAL←0 4⍴0
NOTES←0 22⍴' '

∇N OPEN T;P
⍝ Opens the account N with the name T.
→((1000≤N)∧N<6000)/OK
'ACCOUNTS ARE 1000 THROUGH 5999'
→0
OK:→(~N∊ACCOUNTS)/NEW
'THERE IS AN ACCOUNT ',⍕N
→0
NEW:P←+/ACCOUNTS<N
ACCOUNTS←(P↑ACCOUNTS),N,P↓ACCOUNTS
NAMES←((P,16)↑NAMES),[1](16↑T),[1](P,0)↓NAMES
∇

∇Z←WRONG E;P
⍝ What is wrong with an entry, the pairs E of an account and an amount: a text, empty where nothing is.
Z←'AN ENTRY IS PAIRS OF AN ACCOUNT AND AN AMOUNT'
→((0=⍴E)∨2|⍴E)/0
E←(((⍴E)÷2),2)⍴E
Z←'THERE IS NO ACCOUNT ',⍕1↑(~E[;1]∊ACCOUNTS)/E[;1]
→(∨/~E[;1]∊ACCOUNTS)/0
Z←'DEBITS AND CREDITS DIFFER BY ',⍕|+/E[;2]
→(0≠+/E[;2])/0
Z←'THERE IS NO DAY ',⍕DAY
P←100 100⊤DAY
→(~∧/(P≥1)∧P≤12 31)/0
Z←'THE LAST ENTRY IS OF ',⍕⌈/JOURNAL[;2]
→(DAY<⌈/JOURNAL[;2])/0
Z←''
∇

∇T POST E;N
⍝ Posts an entry with the text T, on DAY, or says what is wrong with it and posts nothing.
E←,E
N←WRONG E
→(0=⍴N)/OK
N
→0
OK:NOTES←NOTES,[1]22↑T
N←(⍴NOTES)[1]
JOURNAL←JOURNAL,[1]N,DAY,(((⍴E)÷2),2)⍴E
'ENTRY ',⍕N
∇

∇CONTRA N;R
⍝ Posts the contrary of entry N, which undoes it.
R←(JOURNAL[;1]=N)⌿JOURNAL[;3 4]
→(0≠1↑⍴R)/OK
'THERE IS NO ENTRY ',⍕N
→0
OK:('CONTRARY OF ',⍕N) POST R×(⍴R)⍴1 ¯1
∇

∇CLOSE A;B;M
⍝ Posts what ends a year: income and expenses to nothing, and what they come to to the capital account A.
B←BALANCES
M←(B≠0)∧4≤KINDS
→(∨/M)/OK
'INCOME AND EXPENSES ARE CLOSED'
→0
OK:B←M/B
'CLOSING' POST (,⍉(2,⍴B)⍴(M/ACCOUNTS),-B),A,+/B
∇

∇Z←KINDS
⍝ The kind of each account.
Z←(ACCOUNTS-1000|ACCOUNTS)÷1000
∇

∇Z←BALANCES
⍝ The balance of each account, below 0 where credits prevail.
Z←JOURNAL[;4]+.×JOURNAL[;3]∘.=ACCOUNTS
∇

∇Z←AUDIT
⍝ 1 where each entry's lines come to nothing.
Z←∧/0=JOURNAL[;4]+.×JOURNAL[;1]∘.=⍳1↑⍴NOTES
∇

∇Z←TRIAL
⍝ The trial balance: each account's balance on its side, and the totals, which are equal.
Z←LABELS TWOSIDED BALANCES
∇

∇Z←INCOME
⍝ The statement of income: expenses and income, and the profit or loss that makes them equal.
Z←'PROFIT OR LOSS' STATEMENT 4≤KINDS
∇

∇Z←SHEET
⍝ The balance sheet: what is owned, owed and capital, and the profit or loss that isn't closed yet.
Z←'PROFIT OR LOSS' STATEMENT 4>KINDS
∇

∇Z←T STATEMENT M;B
⍝ The balances of the accounts at the ones of M, and one more, T, that makes both sides equal.
B←M/BALANCES
Z←((M⌿LABELS),[1](1↓⍴LABELS)↑T)TWOSIDED B,-+/B
∇

∇Z←L TWOSIDED B
⍝ A table of labels and amounts in two columns, with a line of totals.
Z←'ACCOUNT' ATLEFT L,[1](1↓⍴L)↑'TOTAL'
Z←Z,'DEBIT' ATRIGHT MONEY(0⌈B),+/0⌈B
Z←Z,'CREDIT' ATRIGHT MONEY(0⌈-B),+/0⌈-B
∇

∇Z←ACCOUNT N;R;B
⍝ All lines of the account N, with its balance after each.
→(N∊ACCOUNTS)/OK
'THERE IS NO ACCOUNT ',⍕N
→0
OK:R←(JOURNAL[;3]=N)⌿JOURNAL
B←+\R[;4]
Z←('DAY' ATLEFT DASHED R[;2]),'NOTE' ATLEFT NOTES[R[;1];]
Z←Z,('DEBIT' ATRIGHT MONEY 0⌈R[;4]),'CREDIT' ATRIGHT MONEY 0⌈-R[;4]
Z←Z,('BALANCE' ATRIGHT MONEY B),'' ATRIGHT(3 2⍴'CR--DR')[2+×B;]
∇

∇Z←BOOK;E;F
⍝ The journal: all entries, each with its lines.
E←JOURNAL[;1]
F←E≠0,¯1↓E
Z←'ENTRY' ATLEFT F⍀⍕((+/F),1)⍴F/E
Z←Z,('DAY' ATLEFT F⍀DASHED F/JOURNAL[;2]),'NOTE' ATLEFT F⍀NOTES
Z←Z,'ACCOUNT' ATLEFT LABELS[ACCOUNTS⍳JOURNAL[;3];]
Z←Z,('DEBIT' ATRIGHT MONEY 0⌈JOURNAL[;4]),'CREDIT' ATRIGHT MONEY 0⌈-JOURNAL[;4]
∇

∇Z←LABELS
⍝ Numbers and names of the accounts.
Z←(⍕((⍴ACCOUNTS),1)⍴ACCOUNTS),' ',NAMES
∇

∇Z←MONEY V
⍝ The size of amounts in hundredths as rows with a point, blank for nothing.
V←|V
Z←(⍕((⍴V),1)⍴(V-100|V)÷100),'.','0123456789'[1+⍉10 10⊤V]
Z←(V≠0)⍀(V≠0)⌿Z
∇

∇Z←DASHED D
⍝ Days as rows with dashes.
Z←'0123456789'[1+⍉(8⍴10)⊤D]
Z←1 1 1 1 0 1 1 0 1 1\Z
Z[;5 8]←'-'
∇

∇Z←T ATLEFT M;W
⍝ A column of a table: the rows of M below the title T, at the left, two blanks behind.
W←2+(⍴T)⌈1↓⍴M
Z←(W↑T),[1]((1↑⍴M),W)↑M
∇

∇Z←T ATRIGHT M;W
⍝ A column of a table: the rows of M below the title T, at the right, two blanks before.
W←-2+(⍴T)⌈1↓⍴M
Z←(W↑T),[1]((1↑⍴M),W)↑M
∇

⍝ The accounts of a small shop.
1000 OPEN 'CASH'
1100 OPEN 'BANK'
1200 OPEN 'CUSTOMERS'
1300 OPEN 'GOODS'
2000 OPEN 'SUPPLIERS'
3000 OPEN 'CAPITAL'
4000 OPEN 'SALES'
5000 OPEN 'GOODS SOLD'
5100 OPEN 'RENT'
5200 OPEN 'WAGES'

⍝ Its first month.
DAY←20261102
'PAID IN' POST 1100 500000 3000 ¯500000
⍝> ENTRY 1
DAY←20261103
'RENT OF NOVEMBER' POST 5100 80000 1100 ¯80000
⍝> ENTRY 2
DAY←20261105
'120 LAMPS' POST 1300 216000 2000 ¯216000
⍝> ENTRY 3
DAY←20261112
'40 LAMPS' POST 1000 60000 1200 60000 4000 ¯120000 5000 72000 1300 ¯72000
⍝> ENTRY 4
