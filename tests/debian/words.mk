# A list of words that Guile makes, and targets of it.
define scheme
(define (words count) (map (lambda (k) (string-append "w" (number->string (* k k)))) (iota count)))
(define (joined words) (string-join words " "))
(define kept '())
(define (work count) (do ((k 0 (+ k 1))) ((= k 300)) (set! kept (words count))) (joined kept))
endef
$(guile $(scheme))
NAMES := $(guile (work 200))
all: $(NAMES)
	@echo $(words $(NAMES)) $(guile (joined (words 5)))
w%:
	@true $(guile (begin (work 20) ""))
.PHONY: all $(NAMES)
