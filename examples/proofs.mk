# Checks many proofs: each folder beside which this is run, with a model and a term in it, gets a report. A report is made again where
# the model or the term is newer. Where a proof isn't closed, what was printed is shown, and make goes on with -k.
#
#     make -k -j 8 -C FOLDER -f examples/proofs.mk DLK=/path/to/dlk
DLK ?= dlk

.PHONY: all
all: $(patsubst %/term,%/report,$(wildcard */term))

%/report: %/model %/term
	@$(DLK) check $^ > $@ || { sed 's,^,$*: ,' $@; exit 1; }

.DELETE_ON_ERROR:
