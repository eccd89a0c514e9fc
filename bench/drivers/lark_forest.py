"""Lark's Earley parser by characters, which gives the packed forest. Fails where the input isn't permitted."""

import sys

import lark

sys.setrecursionlimit(1000000)
grammar_file, input_file = sys.argv[1:]
with open(grammar_file, encoding="utf-8") as file:
    parser = lark.Lark(file.read(), parser="earley", lexer="dynamic", ambiguity="forest", start="start")
with open(input_file, encoding="utf-8", newline="") as file:
    parser.parse(file.read())
