# Works the unbeaten points of a day out with emoa's nondominated_points.
# usage: Rscript day_emoa.R FRAMES D; prints the seconds that it took, the median of nine, and how many points are left.
library(emoa)
arguments <- commandArgs(trailingOnly = TRUE)
bytes <- as.integer(readBin(arguments[1], "raw", file.size(arguments[1])))
d <- as.integer(arguments[2])
frames <- matrix(bytes, nrow = 1 + 4 * d)
points <- t(sapply(0:(d - 1), function(i) colSums(frames[1 + 4 * i + 1:4, ] * 256^(0:3))))
spent <- sapply(1:9, function(run) system.time(nondominated_points(points))[["elapsed"]])
cat(median(spent), ncol(nondominated_points(points)), "\n")
