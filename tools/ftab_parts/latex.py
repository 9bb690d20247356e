# The table for papers, as LaTeX: a tabular with plain lines, which wants no package. The effects are its last column; at
# three levels a second tabular has the means of levels. Below it a paragraph has the plan, letters and names, the scale and
# the denominator; version and digest stand in comments above it.
#
# Defined here:
#   escaped     a name as LaTeX sets it
#   tex_notes   what is to be known of a table
#   latex       an analysis in this format

from ftab_parts import effects
from ftab_parts.analysis import name_of, row_effects, source_letters, sums
from ftab_parts.columns import (LEFT, MEANING, MOST_SOURCE, POINT, PROVED, Column, about, estimate_texts, head_lines,
                                kind_text, mean_columns, table_columns)

ESCAPES = {"\\": r"\textbackslash{}", "&": r"\&", "%": r"\%", "$": r"\$", "#": r"\#", "_": r"\_", "{": r"\{", "}": r"\}",
           "~": r"\textasciitilde{}", "^": r"\textasciicircum{}", "<": r"\textless{}", ">": r"\textgreater{}",
           "|": r"\textbar{}", '"': r"\symbol{34}"}
TIMES = r" $\times$ "


def escaped(name):
    """A text with the signs that LaTeX would take for commands escaped."""
    return "".join(ESCAPES.get(letter, letter) for letter in name)


def tex_number(text):
    """A number as LaTeX sets it."""
    if "e" in text:
        head, _, power = text.partition("e")
        return r"$%s \cdot 10^{%d}$" % (head, int(power))
    return "$%s$" % text if text.startswith("-") else text


def tex_tabular(columns, rules):
    """Columns as a tabular, with rules above and below the head, at the end, and before the lines of some numbers."""
    how = "".join("l" if column.how == LEFT else "r" for column in columns)
    heads = [column.head for column in columns]
    lines = [r"\begin{tabular}{%s}" % how, r"\hline", " & ".join(heads) + r" \\", r"\hline"]
    for number, cells in enumerate(zip(*(column.cells for column in columns))):
        lines += [r"\hline"] if number in rules else []
        lines.append(" & ".join(cells) + r" \\")
    return lines + [r"\hline", r"\end{tabular}"]


def tex_columns(columns, names):
    """Columns of the text with capital heads, and numbers as LaTeX sets them; before them one of names."""
    found = [Column("Source", names, LEFT)]
    for column in columns:
        cells = column.cells if column.how == LEFT else [tex_number(cell) for cell in column.cells]
        found.append(Column(column.head.capitalize(), cells, column.how))
    return found


def tex_estimates(analysis):
    """The column of effects beside the rows."""
    texts = estimate_texts(row_effects(analysis))
    return Column("effect", ["", *texts[1:]] + [""] * len(sums(analysis)), POINT)


def tex_names(analysis):
    """What the rows stand for, by names as LaTeX sets them, or by letters where the names are long."""
    names = {letter: escaped(name) for letter, name in analysis.names.items()}
    letters = source_letters(analysis)
    short = [len(effects.spelled(own, analysis.names)) <= MOST_SOURCE for own in letters]
    found = [effects.spelled(own, names, TIMES) if fits else own for own, fits in zip(letters, short)]
    return ["Mean", *found[1:]]


def tex_table(analysis):
    """The columns of the table and of the effects, with what the rows stand for."""
    columns = [own for own in table_columns(analysis) if own.head not in ("row", "source", "")]
    columns += [tex_estimates(analysis)] if analysis.effects else []
    kinds = Column("", [kind_text(line.row) for line in analysis.lines] + [""] * len(sums(analysis)), LEFT)
    return tex_columns(columns + [kinds], tex_names(analysis) + [line.row.label.capitalize() for line in sums(analysis)])


def tex_notes(analysis):
    """What is to be known of a table, as a paragraph: the plan, letters and names, scale, denominator, direction."""
    notes = [escaped(line) for line in about(analysis)]
    notes += ["Numerators are over %d" % analysis.table.over] + ["Effects are high minus low"] * bool(analysis.effects)
    return [r"\noindent"] + [note + "." for note in notes]


def latex(analysis, version):
    """The table for papers: a tabular, and at three levels a second one with the level means."""
    foot = [PROVED, "ftab %s, sheet sha256 %s" % (version, analysis.digest)]
    lines = ["% " + line for line in head_lines(analysis)[:1] + foot]
    lines += tex_tabular(tex_table(analysis), [len(analysis.lines)])
    lines += ["", *tex_notes(analysis)]
    if analysis.means:
        means = [own for own in mean_columns(analysis) if own.how == POINT]
        names = [escaped(name_of(analysis, letter)) for letter, _ in analysis.means]
        lines += ["", "% " + MEANING[3]] + tex_tabular(tex_columns(means, names), [])
    return "".join(line + "\n" for line in lines)
