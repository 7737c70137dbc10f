"""Rules in a language's own syntax, in place of constructors: `docs/manual/rules.md` is the manual.

A text is hidden (`holes`): its metavariables become words that the language's parser takes. What it is parsed as becomes a pattern with
holes (`trees`, `pattern`) by the tables of the language's adapter (`adapter`; the adapters are in the languages' folders). Patterns are
written as strategies have them (`writing`): rules (`rules`) as definitions of ordinary modules (`compiling`), and quotations in modules
(`quotations`) in their places. Each text that is made knows which place of the user's text it comes from (`text`).
"""
