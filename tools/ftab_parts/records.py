# The table for spreadsheets, as CSV, and for programs, as JSON.
#
# In CSV a number is a decimal, exact where it ends and else rounded to 15 digits, as many as a spreadsheet keeps;
# numerator, denominator and scale are whole. In JSON exact numbers are strings: decimals where they end, else fractions in
# lowest terms, such as 38/3; degrees are numbers. docs/USING.md has the fields of both.
#
# Defined here:
#   HEAD         the fields of CSV
#   csv, json    an analysis in these formats

import csv as csv_files
import io
import json as json_files

from ftab_parts import effects, files
from ftab_parts.analysis import block_label, effect_letters, name_of, row_effects, source_letters, spelled, sums
from ftab_parts.columns import PROVED
from ftab_parts.factab import plain
from ftab_parts.figures import decimals, exact, rounded
from reference.rules import totals as totals_rules

CSV_DIGITS = 15


# ---- CSV ----

HEAD = ("file", "part", "row", "label", "level", "source", "degrees", "numerator", "denominator", "scale", "sum_of_squares",
        "mean_square", "ratio", "kind", "estimate")


def decimal(number):
    """A number as spreadsheets read it: exact where it ends, else rounded; nothing for None."""
    if number is None:
        return ""
    return exact(number) if decimals(number) is not None else rounded(number, CSV_DIGITS)


def csv_line(analysis, line, part, source, estimate):
    """The record of a line of the table."""
    row = line.row
    return dict(part=part, row=row.label, label=row.label, source=source, degrees=row.degrees, numerator=row.numerator,
                denominator=analysis.table.over, scale=analysis.scale, sum_of_squares=decimal(line.squares),
                mean_square=decimal(line.mean), ratio=decimal(line.ratio), kind=row.kind, estimate=decimal(estimate))


def csv_records(analysis):
    """The records of an analysis: the rows, the sums, the effects of added factors or the means of levels."""
    estimates = [own.value for own in row_effects(analysis)] or [None] * len(analysis.lines)
    found = [csv_line(analysis, line, "row", source, estimate)
             for line, source, estimate in zip(analysis.lines, spelled(analysis, source_letters(analysis)), estimates)]
    found += [csv_line(analysis, line, "sum", "", None) for line in sums(analysis)]
    found += [dict(part="added", row=own.row, label=own.label, source=name_of(analysis, own.label), kind=own.kind,
                   estimate=decimal(own.value)) for own in analysis.added]
    found += [dict(part="level", row=letter, label=letter, level=level, source=name_of(analysis, letter),
                   estimate=decimal(mean)) for letter, means in analysis.means for level, mean in enumerate(means)]
    return found


def csv(analysis, version):
    """The table for spreadsheets. The version is not in it."""
    out = io.StringIO()
    writer = csv_files.DictWriter(out, HEAD, restval="", lineterminator="\n")
    writer.writeheader()
    for record in csv_records(analysis):
        writer.writerow(dict(record, file=plain(files.name_of(analysis.path))))
    return out.getvalue()


# ---- JSON ----

def string(number):
    """An exact number as a string, and None as it is."""
    return None if number is None else exact(number)


def json_line(line, source):
    """A line of the table."""
    return {"label": line.row.label, "source": source, "degrees": line.row.degrees, "numerator": str(line.row.numerator),
            "sum_of_squares": string(line.squares), "mean_square": string(line.mean), "ratio": string(line.ratio),
            "kind": line.row.kind}


def json_plan(analysis):
    """The plan."""
    plan = analysis.plan
    added = [{"letter": own.label, "word": own.row, "sign": sign, "generator": effects.generator(own)}
             for own, (_, sign) in zip(analysis.added, plan.added)]
    return {"levels": plan.levels, "factors": plan.k, "added": added,
            "blocks": [block_label(plan, word) for word in plan.blocks], "repeats": plan.repeats,
            "runs": totals_rules.run_count(plan.levels, plan.k), "readings": totals_rules.reading_count(plan)}


def json_effects(analysis):
    """The effects, those of added factors last."""
    return [{"label": own.label, "source": name, "row": own.row, "kind": own.kind, "estimate": string(own.value)}
            for own, name in zip(analysis.effects + analysis.added, spelled(analysis, effect_letters(analysis)))]


def json(analysis, version):
    """The table for programs."""
    sources = spelled(analysis, source_letters(analysis))
    found = {"ftab": version, "file": plain(files.name_of(analysis.path)), "sheet_sha256": analysis.digest, "proved": PROVED,
             "factab": analysis.text, "plan": json_plan(analysis), "names": analysis.names, "scale": str(analysis.scale),
             "denominator": str(analysis.table.over),
             "rows": [json_line(line, source) for line, source in zip(analysis.lines, sources)],
             "blocks": json_line(analysis.blocks, ""), "error": json_line(analysis.error, ""),
             "total": json_line(analysis.total, ""), "check": [str(own) for own in analysis.table.checks]}
    if analysis.effects:
        found.update({"direction": "high minus low", "effects": json_effects(analysis)})
    else:
        found["level_means"] = [{"label": letter, "source": name_of(analysis, letter), "means": list(map(string, means))}
                                for letter, means in analysis.means]
    return json_files.dumps(found, indent=2) + "\n"
