# Works the lists of a tape's eight watches out afresh after each of its last quotes, with emoa's nondominated_points.
# usage: Rscript emoa.R TAPE QUOTES; prints the seconds that each of the last QUOTES took, then the positions of each watch's last list,
# a line for each watch.
library(emoa)
arguments <- commandArgs(trailingOnly = TRUE)
bytes <- as.integer(readBin(arguments[1], "raw", file.size(arguments[1])))
timed <- as.integer(arguments[2])

# The opening, the eight watches, then quotes of one byte of kind and d columns of four bytes.
d <- bytes[2]
directions <- bytes[5]
watched <- bytes[5 + 3 * (0:7) + 2] + 256 * bytes[5 + 3 * (0:7) + 3]
frames <- matrix(bytes[-(1:29)], nrow = 1 + 4 * d)
column <- function(i) colSums(frames[1 + 4 * i + 1:4, ] * 256^(0:3))

# One point to a column of the matrix; high columns are negated, since emoa takes lower as better.
points <- t(sapply(0:(d - 1), function(i) if (bitwAnd(directions, 2^i) > 0) -column(i) else column(i)))
window <- function(n, newest) max(1, newest - n + 1):newest
list_of <- function(n, newest) nondominated_points(points[, window(n, newest), drop = FALSE])

# emoa goes by points, a list by positions: of positions with equal points the last one stands.
names_of <- function(some) apply(some, 2, paste, collapse = " ")
positions_of <- function(n, newest) {
  there <- names_of(points[, window(n, newest), drop = FALSE])
  window(n, newest)[there %in% names_of(list_of(n, newest)) & !duplicated(there, fromLast = TRUE)]
}

last <- ncol(points)
spent <- system.time(for (newest in (last - timed + 1):last) for (n in watched) list_of(n, newest))
cat(spent[["elapsed"]] / timed, "\n")
for (n in watched) cat(positions_of(n, last), "\n")
