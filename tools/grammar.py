#!/usr/bin/env python3
"""Writes the files of crates/bg_trees and crates/bg_syntax that follow from the grammar of the model language.

Run it at the top of the repository:

    python3 tools/grammar.py

It reads nothing but the grammar below, and writes every file of these crates whose first lines name this script.
Change the grammar here, run it, then `rt fmt` and `rt check` in both crates, crates/bg_trees first.

What it writes in crates/bg_trees:

    src/TOPIC.rt                             a type for each symbol

and in crates/bg_syntax:

    src/symbol.rt, src/table.rt              the symbols, and the LL(1) table
    src/read/TOPIC.rt                        a function for each symbol, by recursive descent
    specs/Numbers.antt, specs/Grammar.antt   the grammar as data
    specs/Plan.antt                          follow sets and ranks, beside the table
    specs/TOPICSteps.antt                    the steps of the derivation that a tree is
    proofs/TOPICTrees.antt                   laws of these
    specs/TOPICTrees.antt                    the derivation tree that a tree is
    proofs/TOPICRows.antt                    that the two have the same steps
    proofs/reader/..                         the goals of the reading functions that the prover leaves to us

specs/Grammar.antt is to be read: it says what a model is. All else needs no trust, since the prover checks it. A wrong
table fails the test of tables, a wrong function or a wrong step of a tree fails the contract of `parse`.
grammar_sets.py computes the table, grammar_code.py writes code and definitions, grammar_proofs.py the proofs of the
reading functions, grammar_trees.py derivation trees and their proofs. specs/TOPICTrees.antt is to be read too: it says
what a law that two trees are the same compares.
"""

import os
import sys

# ---- the grammar: small words are keywords and classes of tokens, quoted ones are symbols, `none` is the empty word

GRAMMAR = '''
Model    = Stmts Block
Stmts    = Stmt Stmts | none
Stmt     = atomic Fun ctrl Control | fun AfterFun | ctrl Control | big Bigraph | react React | Param
Fun      = fun | none
AfterFun = atomic ctrl Control | ctrl Control | big Bigraph | react React
Control  = upper Formals "=" Number ";"
Bigraph  = lower Formals "=" E ";"
React    = lower Formals "=" E "-->" E Tail ";"
Tail     = Eta IfTail | Cond EtaTail | none
IfTail   = Cond | none
EtaTail  = Eta | none
Eta      = "@" "[" Numbers "]"
Numbers  = Number MoreNum | none
MoreNum  = "," Number MoreNum | none
Number   = zero | one | num
Cond     = if Test Tests
Tests    = "," Test Tests | none
Test     = Not E in Side
Not      = "!" | none
Side     = ctx | param
Formals  = "(" lower MoreLow ")" | none
MoreLow  = "," lower MoreLow | none
Param    = int lower "=" IntSet ";" | string lower "=" TextSet ";"
IntSet   = "{" X MoreX "}" | "[" X ":" X ":" X "]" | X
TextSet  = "{" text MoreText "}" | text
MoreText = "," text MoreText | none
Block    = begin brs Params init Ref ";" rules "=" "[" Classes "]" ";" Preds end | none
Params   = Param Params | none
Classes  = Class MoreCl | none
MoreCl   = "," Class MoreCl | none
Class    = "{" Refs "}" | "(" Refs ")"
Preds    = preds "=" "{" Refs "}" ";" | none
Refs     = Ref MoreRef | none
MoreRef  = "," Ref MoreRef | none
Ref      = lower Args
Args     = "(" X MoreX ")" | none
MoreX    = "," X MoreX | none
E        = P E1
E1       = "+" P E1 | none
P        = M P1
P1       = "||" M P1 | none
M        = C M1
M1       = "|" C M1 | none
C        = K C1
C1       = "*" K C1 | none
K        = "/" lower K | N
N        = A N1
N1       = "." K | none
A        = upper Args Names | Ref | "{" NameList "}" | id IdTail | merge "(" Number ")" | zero | one | "(" E ")"
Names    = "{" NameList "}" | none
NameList = lower MoreLow | none
IdTail   = "(" Number IdNames ")" | "{" NameList "}" | none
IdNames  = "," "{" NameList "}" | none
X        = T X1
X1       = "+" T X1 | "-" T X1 | none
T        = U T1
T1       = "*" U T1 | "/" U T1 | none
U        = Number | text | lower | "-" U | "(" X ")"
'''

# the symbols that make what stands below them one deeper
DEEPENS = ['K', 'U']

# the kinds of tokens in the order of `TokenKind` of bg_text, as the grammar writes them
KINDS = [
    ('lower', 'Lower'), ('upper', 'Upper'), ('zero', 'Zero'), ('one', 'One'), ('num', 'Num'), ('text', 'Text'),
    ('atomic', 'KwAtomic'), ('begin', 'KwBegin'), ('big', 'KwBig'), ('brs', 'KwBrs'), ('ctrl', 'KwCtrl'),
    ('ctx', 'KwCtx'), ('end', 'KwEnd'), ('fun', 'KwFun'), ('id', 'KwId'), ('if', 'KwIf'), ('in', 'KwIn'),
    ('init', 'KwInit'), ('int', 'KwInt'), ('merge', 'KwMerge'), ('param', 'KwParam'), ('preds', 'KwPreds'),
    ('react', 'KwReact'), ('rules', 'KwRules'), ('string', 'KwString'),
    ('"-->"', 'Arrow'), ('"||"', 'BarBar'), ('"|"', 'Bar'), ('"+"', 'Plus'), ('"-"', 'Minus'), ('"*"', 'Star'),
    ('"/"', 'Slash'), ('"."', 'Dot'), ('","', 'Comma'), ('";"', 'Semicolon'), ('":"', 'Colon'), ('"="', 'Equals'),
    ('"{"', 'OpenBrace'), ('"}"', 'CloseBrace'), ('"("', 'OpenRound'), ('")"', 'CloseRound'),
    ('"["', 'OpenSquare'), ('"]"', 'CloseSquare'), ('"@"', 'At'), ('"!"', 'Bang'),
]

# what the files are about, and their symbols; each stands on those before it
TOPICS = [
    ('names', 'Names and numbers.', 'Number Formals MoreLow Names NameList'),
    ('arithmetic', 'Arithmetic.', 'MoreX X X1 T T1 U'),
    ('expressions', 'Expressions: bigraphs built of references, ions, links and products.',
     'Ref Args E E1 P P1 M M1 C C1 K N N1 A IdTail IdNames'),
    ('statements', 'Statements: controls, bigraphs, rules and parameters.',
     'Stmt Fun AfterFun Control Bigraph React Tail IfTail EtaTail Eta Numbers MoreNum Cond Tests Test Not Side '
     'Param IntSet TextSet MoreText'),
    ('models', 'Models: statements, and then the block with parameters, the first bigraph, classes and predicates.',
     'Model Stmts Block Params Classes MoreCl Class Preds Refs MoreRef'),
]


def main():
    sys.dont_write_bytecode = True
    import grammar_code
    import grammar_proofs
    import grammar_sets
    import grammar_trees

    grammar_code.write()
    grammar_proofs.write()
    grammar_trees.write()
    top = os.path.join(os.path.dirname(os.path.abspath(__file__)), '..')
    for path, text in grammar_code.FILES.items():
        full = os.path.join(top, path)
        os.makedirs(os.path.dirname(full), exist_ok=True)
        with open(full, 'w') as f:
            f.write(text)
    print(grammar_sets.counts(), f'{len(grammar_code.FILES)} files')


if __name__ == '__main__':
    main()
