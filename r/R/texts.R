# Columns of a data frame as the texts of a CSV.

# The codes of a column as texts; NA stays NA. Numbers are written out: 100000, never 1e+05.
code_texts <- function(column, name) {
  if (is.factor(column)) return(good_texts(levels(column), name)[as.integer(column)])
  if (inherits(column, "integer64")) return(integer64_texts(column))
  if (inherits(column, c("Date", "POSIXct", "POSIXlt"))) return(format(column))
  if (!is.atomic(column) || !is.null(dim(column)) || is.complex(column) || is.raw(column)) {
    bad_call(paste0("Column ", name, " is of the class ", class(column)[1], ", which has no codes."), "Give texts, a factor, numbers or dates.", column = name)
  }
  different <- unique(column)
  texts <- if (is.character(different)) good_texts(different, name) else number_codes(different, name)
  texts[match(column, different)]
}

# Texts in UTF-8. One that isn't text of its encoding is refused.
good_texts <- function(texts, name) {
  texts <- enc2utf8(texts)
  bad <- which(!is.na(texts) & !validUTF8(texts))
  if (length(bad)) {
    remedy <- paste0("If it is in Latin-1, say so: iconv(x, \"latin1\", \"UTF-8\"), or fileEncoding = \"latin1\" where it is read.")
    bad_call(paste0("Column ", name, " has a text that isn't UTF-8: ", iconv(texts[bad[1]], "latin1", "ASCII", sub = "byte")), remedy, column = name)
  }
  texts
}

# Numbers and truth values as codes: whole ones in digits alone, others with as few decimals as tell them apart.
number_codes <- function(numbers, name) {
  if (is.logical(numbers)) return(as.character(numbers))
  if (is.integer(numbers)) return(ifelse(is.na(numbers), NA_character_, sprintf("%d", numbers)))
  large <- which(is.finite(numbers) & abs(numbers) >= 2^53)
  if (length(large)) {
    bad_call(paste0("Column ", name, " has numbers of more than 15 digits, of which R keeps only the first: ", sprintf("%.0f", numbers[large[1]])),
             "Read such a column as texts (colClasses = \"character\") or as integer64.", column = name)
  }
  texts <- decimal_texts(numbers)
  texts[is.infinite(numbers)] <- as.character(numbers[is.infinite(numbers)])
  texts
}

# Numbers of bit64's class integer64, which keeps 64 bits in place of a double: the bits, divided by 10^9 with remainder, in parts of 16.
integer64_texts <- function(numbers) {
  halves <- matrix(readBin(writeBin(as.double(unclass(numbers)), raw(), endian = "little"), "integer", 4 * length(numbers), 2, FALSE, "little"), 4)
  if (!length(numbers)) return(character())
  is_negative <- halves[4, ] >= 32768
  is_absent <- halves[4, ] == 32768 & colSums(halves[1:3, , drop = FALSE]) == 0
  parts <- halves[4:1, , drop = FALSE]
  parts[, is_negative] <- 65535 - parts[, is_negative]
  parts[4, is_negative] <- parts[4, is_negative] + 1
  pieces <- character(length(numbers))
  for (it in 1:3) {
    rest <- numeric(length(numbers))
    for (k in 1:4) {
      whole <- rest * 65536 + parts[k, ]
      parts[k, ] <- whole %/% 1e9
      rest <- whole %% 1e9
    }
    pieces <- paste0(sprintf("%09.0f", rest), pieces)
  }
  texts <- sub("^0+(?=[0-9])", "", pieces, perl = TRUE)
  ifelse(is_absent, NA_character_, paste0(ifelse(is_negative, "-", ""), texts))
}

# The amounts of a column as texts, and how many of them were rounded. Without `places` each is written with the fewest digits, 15 to 17,
# that R reads as the same number again; so nothing is rounded, and argus refuses what has more decimals than it takes.
amount_texts <- function(column, name, places = NULL) {
  if (inherits(column, "integer64")) return(list(texts = integer64_texts(column), rounded = 0L))
  if (!is.numeric(column) || is.factor(column) || !is.null(dim(column)) || inherits(column, c("Date", "POSIXct", "difftime"))) {
    bad_call(paste0("Column ", name, " isn't numeric."), "Turn it into numbers first.", column = name)
  }
  if (is.integer(column)) return(list(texts = ifelse(is.na(column), NA_character_, sprintf("%d", column)), rounded = 0L))
  column <- as.double(column)
  texts <- rep(NA_character_, length(column))
  texts[is.infinite(column)] <- as.character(column[is.infinite(column)])
  there <- which(is.finite(column))
  texts[there] <- sprintf("%.15g", column[there])
  there <- there[!is_written(texts[there], column[there], places)]
  cut <- cut_decimals(shortest(column[there]), places)
  texts[there] <- cut$texts
  list(texts = texts, rounded = cut$rounded)
}

# Whether texts of 15 digits are plain decimals already, say exactly what the numbers are, and have no more decimals than are asked for.
is_written <- function(texts, numbers, places) {
  point <- regexpr(".", texts, fixed = TRUE)
  is_short <- is.null(places) | point < 0 | nchar(texts) - point <= c(places, 0)[1]
  is_short & as.numeric(texts) == numbers & !grepl("e", texts, fixed = TRUE)
}

# Finite numbers in plain decimals, exactly as R reads them; NA stays.
decimal_texts <- function(numbers) {
  texts <- rep(NA_character_, length(numbers))
  there <- which(is.finite(numbers))
  texts[there] <- amount_texts(numbers[there], "")$texts
  texts
}

# Numbers taken apart: sign, digits without zeros at the end, and how many of the digits are before the point (which may be below 0, or
# more than there are digits).
shortest <- function(numbers) {
  texts <- sprintf("%.14e", numbers)
  for (more in 15:16) {
    left <- which(as.numeric(texts) != numbers)
    if (!length(left)) break
    texts[left] <- sprintf(paste0("%.", more, "e"), numbers[left])
  }
  at <- regexpr("e", texts, fixed = TRUE)
  list(sign = ifelse(startsWith(texts, "-"), "-", ""),
       digits = sub("0+$", "", gsub("[-.]", "", substr(texts, 1, at - 1), perl = TRUE), perl = TRUE),
       before = as.integer(substr(texts, at + 1, nchar(texts))) + 1L)
}

# Plain decimals of numbers that are taken apart; with `places`, those that have more decimals are rounded to that many, a half away from
# zero, by their decimal digits alone.
cut_decimals <- function(exact, places) {
  digits <- exact$digits
  before <- exact$before
  rounded <- 0L
  if (!is.null(places)) {
    keep <- before + places
    long <- which(nchar(digits) > pmax(keep, 0L))
    rounded <- length(long)
    if (rounded) {
      head <- ifelse(keep[long] > 0, substr(digits[long], 1, keep[long]), "")
      next_digit <- ifelse(keep[long] < 0, "0", substr(digits[long], keep[long] + 1, keep[long] + 1))
      up <- next_digit >= "5"
      whole <- paste0("0", head)
      whole[up] <- plus_one(whole[up])
      # The whole has one digit more in front now.
      digits[long] <- whole
      before[long] <- nchar(whole) - as.integer(places)
    }
  }
  list(texts = written_out(exact$sign, digits, before), rounded = rounded)
}

# The next whole number, by digits: nines at the end turn to zeros. A zero in front leaves room.
plus_one <- function(digits) {
  nines <- attr(regexpr("9*$", digits, perl = TRUE), "match.length")
  at <- nchar(digits) - nines
  paste0(substr(digits, 1, at - 1), as.integer(substr(digits, at, at)) + 1L, strrep("0", nines))
}

# Digits and the number of those before the point, as a text without needless zeros.
written_out <- function(sign, digits, before) {
  front <- pmax(0L, -before)
  digits <- paste0(strrep("0", front), digits)
  before <- pmax(before, 0L)
  digits <- paste0(digits, strrep("0", pmax(0L, before - nchar(digits))))
  whole <- sub("^0+(?=[0-9])", "", paste0("0", substr(digits, 1, before)), perl = TRUE)
  behind <- sub("0+$", "", substr(digits, before + 1, nchar(digits)), perl = TRUE)
  is_zero <- whole == "0" & behind == ""
  paste0(ifelse(is_zero, "", sign), whole, ifelse(nzchar(behind), ".", ""), behind)
}

# A field of a CSV; no answer is an empty one.
csv_field <- function(texts, is_code) {
  if (!is_code) return(ifelse(is.na(texts), "", texts))
  different <- unique(texts)
  fields <- paste0("\"", gsub("\"", "\"\"", different, fixed = TRUE), "\"")
  fields[is.na(different)] <- ""
  fields[match(texts, different)]
}
