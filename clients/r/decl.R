# The R client of decl without an installation: source("clients/r/decl.R") brings in the files of the package (R/decl.R).
local({
    sourced <- Filter(Negate(is.null), lapply(sys.frames(), function(frame) frame$ofile))
    here <- dirname(sourced[[length(sourced)]])
    for (file in c("decl.R", "sentences.R", "digits.R", "book.R")) {
        sys.source(file.path(here, "R", file), envir = parent.env(environment()))
    }
})
