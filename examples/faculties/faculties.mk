# make -k -j JOBS -f faculties.mk: one process of `rooms` after the other for each faculty, and the faculties side by
# side. The faculties are the folders with an instance. `run.sh` calls it.
FACULTIES := $(sort $(patsubst %/instance.ctt,%,$(wildcard */instance.ctt)))

.PHONY: all $(FACULTIES)
all: $(FACULTIES)

$(FACULTIES):
	@./run.sh one $@
