#!/usr/bin/env python3
"""Changes a letter of the productions of crates/yf_standard or of their meanings, and checks that a law refuses it.

Usage: bench/standard_edits.py [WORD]     (WORD: only the edits whose label or text contains it)

Run it by hand; it is not part of rt ci, since each edit is a check of the crate. It works on a clone of the last commit
and writes bench/standard_edits.txt, one line for each edit. It fails if an edit is proved.
"""
import os
import re
import subprocess
import sys
import tempfile

TOP = os.path.dirname(os.path.dirname(os.path.abspath(__file__)))
SPECS = "crates/yf_standard/specs/"
RESULT = os.path.join(TOP, "bench", "standard_edits.txt")

# The number of the production, or what the change does to meanings; the file; what is there once; what it becomes.
EDITS = [
    (36, "Characters", "(0x61 to 0x66)", "(0x61 to 0x67)"),
    (40, "Productions", "ns-uri-char less c-tag less c-flow-indicator", "ns-uri-char less c-tag"),
    (69, "Productions", "s-indent n ∙ s-separate-in-line ⁇", "s-indent n ∙ s-separate-in-line"),
    (79, "Productions", "⟨ start-of-line ⟩) ∙ l-comment ⋆", "⟨ start-of-line ⟩) ∙ l-comment ⁺"),
    (112, "Productions", "b-non-content ∙ l-empty n FlowIn ⋆ ∙ s-flow-line-prefix n", "b-non-content ∙ s-flow-line-prefix n"),
    (130, "Productions", "⟨ lookbehind= ns-char ⟩ ∙ ‹ c-comment ›", "⟨ lookbehind= s-white ⟩ ∙ ‹ c-comment ›"),
    (147, "Productions", "⟨ lookahead≠ (ns-plain-safe c) ⟩", "⟨ lookahead≠ ns-char ⟩"),
    (154, "Productions", "at-most 1024 (ns-flow-yaml-node", "at-most 1025 (ns-flow-yaml-node"),
    (173, "Productions", "l-nb-literal-text n ∙ b-nb-literal-next n ⋆", "l-nb-literal-text n ∙ b-nb-literal-next n ⁺"),
    (185, "Productions", "ns-l-compact-sequence (plus n (1 + m))", "ns-l-compact-sequence (plus n (2 + m))"),
    (189, "Productions", "⟨ no-value n ⟩ ∙ e-node", "e-node"),
    (194, "Productions", "‹ c-mapping-value › ∙ (s-l+block-node n BlockOut", "‹ c-mapping-value › ∙ (s-l+block-node n BlockIn"),
    (201, "Productions", "l+block-sequence (n -ℤ pos 1)", "l+block-sequence n"),
    (211, "Productions", "⁇ ∣ ‹ c-byte-order-mark › ∣ l-comment", "⁇ ∣ l-comment"),
    (72, "Contents", "b-as-space i j x = char 32", "b-as-space i j x = char 10"),
    (112, "Contents", "(s-double-escaped n) i j x = no_backslash x", "(s-double-escaped n) i j x = x"),
    (169, "Contents", "(l-trail-comments n) i j x = []", "(l-trail-comments n) i j x = x"),
    (75, "Tokens", "c-nb-comment-text i j y x = a_comment i", "c-nb-comment-text i j y x = a_comment j"),
    (99, "Tokens", "(slice_range t (i + length h) j)", "(slice_range t i j)"),
    # What the productions mean, by what the change would do.
    ('a break is a carriage return', 'Contents',
     'content_made t b-as-line-feed i j x = char 10 ∷ []',
     'content_made t b-as-line-feed i j x = char 13 ∷ []'),
    ('two single quotes are a double one', 'Contents',
     'content_made t c-quoted-quote i j x = char 39 ∷ []',
     'content_made t c-quoted-quote i j x = char 34 ∷ []'),
    ('the backslash of an escaped break stays', 'Contents',
     'if c == 92 then',
     'if c == 93 then'),
    ('the last hexadecimal digit is left out', 'Contents',
     'number t (i + 2) (j - (i + 2))',
     'number t (i + 2) (j - (i + 3))'),
    ('pairs begin with \\xHH', 'Contents',
     '((k == i + 6) &&',
     '((k == i + 4) &&'),
    ('a bad escape is where it ends', 'Contents',
     'pieces (escape v i k ∷ []) = piece_of v i ∷ []',
     'pieces (escape v i k ∷ []) = piece_of v k ∷ []'),
    ('spaces of stripped lines are content', 'Contents',
     'content_made t (s-indent-less-or-equal n) i j x = []',
     'content_made t (s-indent-less-or-equal n) i j x = x'),
    ('comments after a block scalar are content', 'Contents',
     'content_made t (l-trail-comments n) i j x = []',
     'content_made t (l-trail-comments n) i j x = x'),
    ('a literal scalar has its sign', 'Contents',
     'content_made t (c-l+literal n) i j x = but_first x',
     'content_made t (c-l+literal n) i j x = but_last x'),
    ('a comment is where it ends', 'Tokens',
     'a_comment i (slice_range t i j) ∷ []',
     'a_comment j (slice_range t i j) ∷ []'),
    ('a comment without its sign', 'Tokens',
     'a_comment i (slice_range t i j) ∷ []',
     'a_comment i (slice_range t (i + 1) j) ∷ []'),
    ('a verbatim tag with its <', 'Tokens',
     'IsVerbatim (slice_range t (i + 2) (j - 1))',
     'IsVerbatim (slice_range t (i + 1) (j - 1))'),
    ("a tag's suffix with its handle", 'Tokens',
     '(slice_range t (i + length h) j)',
     '(slice_range t i j)'),
    ('a tag is where it ends', 'Tokens',
     'a_tag i IsNonSpecific ∷ []',
     'a_tag j IsNonSpecific ∷ []'),
    ('an anchor with its sign', 'Tokens',
     'an_anchor (slice_range t (i + 1) j)',
     'an_anchor (slice_range t i j)'),
    ('an alias is where it ends', 'Tokens',
     'an_alias i (slice_range',
     'an_alias j (slice_range'),
    ('an empty node is single-quoted', 'Tokens',
     'tokens_made t e-scalar i j y x = a_scalar Plain [] ∷ []',
     'tokens_made t e-scalar i j y x = a_scalar Single [] ∷ []'),
    ('a single pair is a sequence', 'Tokens',
     'tokens_made t (ns-flow-pair n c) i j y x = starts false true',
     'tokens_made t (ns-flow-pair n c) i j y x = starts true true'),
    ('a compact mapping is a sequence', 'Tokens',
     'tokens_made t (ns-l-compact-mapping n) i j y x = starts false false',
     'tokens_made t (ns-l-compact-mapping n) i j y x = starts true false'),
    ('comments before a literal scalar', 'Tokens',
     'a_scalar Literal y ∷ x',
     '(x ++ a_scalar Literal y ∷ [])'),
    ('a directive is where it ends', 'Tokens',
     'a_directive i (words_among x)',
     'a_directive j (words_among x)'),
    ('a handle is no word', 'Tokens',
     'words_among (a_handle word ∷ x) = word ∷ words_among x',
     'words_among (a_handle word ∷ x) = words_among x'),
    ('comments of directives are lost', 'Tokens',
     'a_directive i (words_among x) ∷ comments_among x',
     'a_directive i (words_among x) ∷ []'),
    ('a bare document is marked', 'Tokens',
     'tokens_made t l-bare-document i j y x = a_document false',
     'tokens_made t l-bare-document i j y x = a_document true'),
    ('an empty document after --- is not marked', 'Tokens',
     'marked_document x = a_document true',
     'marked_document x = a_document false'),
    ('an anchor drops the tag before it', 'Tokens',
     'said p (an_anchor name ∷ x) = said (record p {',
     'said p (an_anchor name ∷ x) = said (record no_props {'),
    ('properties reach the next node too', 'Tokens',
     'let s = said no_props x in',
     'let s = said p x in'),
    ('bad escapes in the wrong order', 'Tokens',
     'escapes = bad_escapes (pieces y) ++ s.escapes',
     'escapes = s.escapes ++ bad_escapes (pieces y)'),
    ('directives are those of all later documents', 'Readings',
     'let s = stream_said [] x in',
     'let s = stream_said ds x in'),
    ('comments of a document are after all later ones', 'Readings',
     'comments = d.comments ++ s.comments;',
     'comments = s.comments ++ d.comments;'),
]


def run(folder):
    done = subprocess.run(["rt", "check"], cwd=folder, stdout=subprocess.PIPE, stderr=subprocess.STDOUT, text=True)
    error = re.search(r"^\S+?(\w+\.antt):\d+:\d+: error: `([^`]+)`", done.stdout, re.M)
    return done.returncode == 0, f"{error.group(1)}, {error.group(2)}" if error else "no error named"


def main():
    wanted = sys.argv[1] if len(sys.argv) > 1 else ""
    lines = []
    failed = False
    with tempfile.TemporaryDirectory() as folder:
        subprocess.run(["git", "clone", "-q", TOP, folder], check=True)
        crate = os.path.join(folder, "crates", "yf_standard")
        proved, error = run(crate)
        if not proved:
            sys.exit("standard_edits.py: what is committed is not proved: " + error)
        for number, name, old, new in EDITS:
            if wanted not in f"{number} {old}":
                continue
            path = os.path.join(folder, SPECS, name + ".antt")
            with open(path, encoding="utf-8") as file:
                text = file.read()
            if text.count(old) != 1:
                sys.exit(f"standard_edits.py: [{number}] is not in its file exactly once: {old}")
            with open(path, "w", encoding="utf-8") as file:
                file.write(text.replace(old, new))
            proved, error = run(crate)
            with open(path, "w", encoding="utf-8") as file:
                file.write(text)
            failed = failed or proved
            lines.append(f"[{number}] {old}  =>  {new}: {'PROVED' if proved else 'refused in ' + error}")
            print(lines[-1], flush=True)
    if not wanted:
        with open(RESULT, "w", encoding="utf-8") as file:
            file.write("\n".join(lines) + "\n")
    sys.exit(failed)


main()
