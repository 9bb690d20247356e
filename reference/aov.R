# R's analysis of variance of one table of readings, for reference/aov.py. As a command:
#
#   Rscript aov.R READINGS.csv TERM ...
#
# READINGS.csv has a column for each factor, base and added, such as xA with its levels, a column `block` where there are
# blocks, and a column `reading`. The terms are those of the model, such as block, xA or xA:xB, in their order; as all are
# orthogonal, the order matters for blocks alone, which come first and take what is lost to them.
#
# Writes a line for each term and for what is left, with degrees and sum of squares:   term xA:xB 1 76.5625
# and for each factor the mean of the readings at each level:                          level xA 0 36.75
# and, where it has two levels, the sum of squares of the factor alone:                alone xE 1 12.25

given <- commandArgs(trailingOnly = TRUE)
readings <- read.csv(given[1])
factors <- setdiff(names(readings), "reading")
readings[factors] <- lapply(readings[factors], factor)

# Degrees and sums of squares of a model, one line for each of its terms.
squares <- function(word, terms) {
    model <- terms(as.formula(paste("reading ~", paste(terms, collapse = " + "))), keep.order = TRUE)
    table <- summary(aov(model, data = readings))[[1]]
    cat(sprintf("%s %s %d %.17g\n", word, trimws(rownames(table)), as.integer(table[["Df"]]), table[["Sum Sq"]]), sep = "")
}

squares("term", given[-1])
for (name in setdiff(factors, "block")) {
    means <- tapply(readings$reading, readings[[name]], mean)
    cat(sprintf("level %s %s %.17g\n", name, names(means), means), sep = "")
    if (length(means) == 2) squares("alone", name)
}
