; The functions of terms, and the events of the text that `vcg vc` writes.
;
; A value of a term is an integer, T, NIL (which stands for F), the keyword :UNDEF (undefined), or a list of
; cells: the keyword :CELLS and then the cells. A list of no cells is (:CELLS), which is not NIL, so only F is
; false. All functions are total, as docs/FORMULAS.md says; where one wants a number, IFIX makes one.
;
; The names of the text are those of the package VCG, which imports nothing. So a definition of a deck
; may have any name, such as LENGTH, and the text is read as it is.
;
; The book lemmas.lisp has what proofs need of these functions. `prelude/book` certifies both.

(in-package "ACL2")

; ---- lists of cells

(defun cells-p (a)
  (declare (xargs :guard t))
  (and (consp a) (eq (car a) :cells)))

(defun cells-of (a)
  (declare (xargs :guard t))
  (if (cells-p a) (cdr a) nil))

(defun undefined-cells (n)
  (declare (xargs :guard t))
  (if (posp n) (cons :undef (undefined-cells (1- n))) nil))

(defun integer-cells-p (cells l h)
  (declare (xargs :guard t :verify-guards nil))
  (if (consp cells)
      (and (or (eq (car cells) :undef)
               (and (integerp (car cells)) (<= (ifix l) (car cells)) (<= (car cells) (ifix h))))
           (integer-cells-p (cdr cells) l h))
    (eq cells nil)))

(defun logical-cells-p (cells)
  (declare (xargs :guard t))
  (if (consp cells)
      (and (or (eq (car cells) :undef) (eq (car cells) t) (eq (car cells) nil))
           (logical-cells-p (cdr cells)))
    (eq cells nil)))

; ---- truth values

(defmacro vcg::and (a &rest more)
  (if (consp more) `(if ,a (vcg::and ,@more) nil) `(if ,a t nil)))

(defmacro vcg::or (a &rest more)
  (if (consp more) `(if ,a t (vcg::or ,@more)) `(if ,a t nil)))

(defmacro vcg::not (a) `(not ,a))
(defmacro vcg::implies (a b) `(implies ,a ,b))
(defmacro vcg::if (a b c) `(if ,a ,b ,c))
(defmacro vcg::equal (a b) `(equal ,a ,b))

; ---- numbers

(defmacro vcg::zplus (a b) `(+ (ifix ,a) (ifix ,b)))
(defmacro vcg::zdiff (a b) `(- (ifix ,a) (ifix ,b)))
(defmacro vcg::ztimes (a b) `(* (ifix ,a) (ifix ,b)))
(defmacro vcg::zneg (a) `(- (ifix ,a)))
(defmacro vcg::zlessp (a b) `(< (ifix ,a) (ifix ,b)))
(defmacro vcg::zleq (a b) `(<= (ifix ,a) (ifix ,b)))
(defmacro vcg::zabs (a) `(abs (ifix ,a)))
(defmacro vcg::zmax (a b) `(max (ifix ,a) (ifix ,b)))
(defmacro vcg::zmin (a b) `(min (ifix ,a) (ifix ,b)))

; The quotient cut towards zero, and what is left.

(defun vcg::zquo (a b)
  (declare (xargs :guard t))
  (let ((a (ifix a)) (b (ifix b)))
    (cond ((equal b 0) 0)
          ((iff (< a 0) (< b 0)) (nonnegative-integer-quotient (abs a) (abs b)))
          (t (- (nonnegative-integer-quotient (abs a) (abs b)))))))

(defun vcg::zrem (a b)
  (declare (xargs :guard t))
  (- (ifix a) (* (vcg::zquo a b) (ifix b))))

; ---- cells

(defun vcg::elt (a i)
  (declare (xargs :guard t :verify-guards nil))
  (if (and (cells-p a) (<= 1 (ifix i)) (<= (ifix i) (len (cdr a))))
      (nth (1- (ifix i)) (cdr a))
    :undef))

(defun vcg::put (a i v)
  (declare (xargs :guard t :verify-guards nil))
  (if (and (cells-p a) (<= 1 (ifix i)) (<= (ifix i) (len (cdr a))) (not (cells-p v)))
      (cons :cells (update-nth (1- (ifix i)) v (cdr a)))
    a))

(defun vcg::size (a)
  (declare (xargs :guard t))
  (if (cells-p a) (len (cdr a)) 0))

(defun vcg::defined (a)
  (declare (xargs :guard t))
  (or (integerp a) (equal a t) (equal a nil)))

(defun vcg::celli (a l h)
  (declare (xargs :guard t))
  (or (eq a :undef)
      (and (integerp a) (<= (ifix l) a) (<= a (ifix h)))))

(defun vcg::celll (a)
  (declare (xargs :guard t))
  (or (eq a :undef) (eq a t) (eq a nil)))

(defun vcg::cellsi (a n l h)
  (declare (xargs :guard t :verify-guards nil))
  (and (cells-p a) (equal (len (cdr a)) (ifix n)) (integer-cells-p (cdr a) l h)))

(defun vcg::cellsl (a n)
  (declare (xargs :guard t :verify-guards nil))
  (and (cells-p a) (equal (len (cdr a)) (ifix n)) (logical-cells-p (cdr a))))

(defmacro vcg::undef () :undef)

(defun vcg::blank (n)
  (declare (xargs :guard t))
  (cons :cells (undefined-cells n)))

; ---- the events of the text

; A term of the text as a term of ACL2. T and F are truth values where they stand as arguments. A definition may have
; the name DEFN, which here is that of a macro. Where a number is wanted, IFIX stands only around what may be none.

(defun function-name-of (name)
  (declare (xargs :mode :program))
  (if (eq name 'vcg::defn) 'vcg::|DEFN OF THE DECK| name))

; Whether each value of a function is an integer, by what ACL2 found when it was defined.

(defun is-integer-function (name wrld)
  (declare (xargs :mode :program))
  (let ((rule (car (last (getpropc name 'type-prescriptions nil wrld)))))
    (and rule
         (null (access type-prescription rule :vars))
         (ts-subsetp (access type-prescription rule :basic-ts) *ts-integer*))))

(defun is-integer-term (x wrld)
  (declare (xargs :mode :program))
  (if (atom x)
      (integerp x)
    (or (member-eq (car x)
                   '(vcg::zplus vcg::zdiff vcg::ztimes vcg::zneg vcg::zquo vcg::zrem vcg::zabs vcg::zmax vcg::zmin vcg::size))
        (is-integer-function (function-name-of (car x)) wrld))))

(mutual-recursion
 (defun term-of (x wrld)
   (declare (xargs :mode :program))
   (cond ((eq x 'vcg::t) t)
         ((eq x 'vcg::f) nil)
         ((atom x) x)
         (t (case (car x)
              (vcg::zplus (cons '+ (numbers-of (cdr x) wrld)))
              (vcg::zdiff (cons '- (numbers-of (cdr x) wrld)))
              (vcg::ztimes (cons '* (numbers-of (cdr x) wrld)))
              (vcg::zneg (cons '- (numbers-of (cdr x) wrld)))
              (vcg::zlessp (cons '< (numbers-of (cdr x) wrld)))
              (vcg::zleq (cons '<= (numbers-of (cdr x) wrld)))
              (vcg::zabs (cons 'abs (numbers-of (cdr x) wrld)))
              (vcg::zmax (cons 'max (numbers-of (cdr x) wrld)))
              (vcg::zmin (cons 'min (numbers-of (cdr x) wrld)))
              (t (cons (function-name-of (car x)) (terms-of (cdr x) wrld)))))))
 (defun terms-of (x wrld)
   (declare (xargs :mode :program))
   (if (atom x) nil (cons (term-of (car x) wrld) (terms-of (cdr x) wrld))))
 (defun numbers-of (x wrld)
   (declare (xargs :mode :program))
   (if (atom x)
       nil
     (cons (if (is-integer-term (car x) wrld) (term-of (car x) wrld) (list 'ifix (term-of (car x) wrld)))
           (numbers-of (cdr x) wrld)))))

(mutual-recursion
 (defun uses (name x)
   (declare (xargs :mode :program))
   (and (consp x) (or (eq (car x) name) (some-uses name (cdr x)))))
 (defun some-uses (name x)
   (declare (xargs :mode :program))
   (and (consp x) (or (uses name (car x)) (some-uses name (cdr x))))))

(defun rule-name-of (name what)
  (declare (xargs :mode :program))
  (intern-in-package-of-symbol (concatenate 'string (symbol-name name) " " what) 'vcg::defn))

; A plain definition, and a counting one. A counting one is admitted by its count, which falls. It is opened where the count is at most
; 0, or a constant up to 8; a use with a greater constant stands as it is, so that lemmas of one's own find it.

(defun definition-of (name params body wrld)
  (declare (xargs :mode :program))
  (let ((name (function-name-of name)) (term (term-of body wrld)))
    (if (not (uses name term))
        `(defun ,name ,params (declare (ignorable ,@params)) ,term)
      (let ((count (car params)) (base (caddr term)) (step (cadddr term)))
        `(encapsulate nil
           (defun ,name ,params
             (declare (xargs :measure (nfix (ifix ,count)))
                      (ignorable ,@params))
             ,term)
           (defthm ,(rule-name-of name "AT MOST ZERO")
             (implies (<= (ifix ,count) 0) (equal (,name ,@params) ,base)))
           (defthm ,(rule-name-of name "AT A SMALL CONSTANT")
             (implies (and (syntaxp (quotep ,count)) (< 0 (ifix ,count)) (<= (ifix ,count) 8))
                      (equal (,name ,@params) ,step))))))))

(defmacro vcg::defn (name params body)
  `(with-output :off :all (make-event (definition-of ',name ',params ',body (w state)))))

; A lemma is tried for at most so many seconds, and a line tells what came of it. It leaves nothing behind, so that the next ones
; do not depend on it. A lemma with classes is one of one's own: it is kept as a rule.

(defun told (name proved start limit state)
  (declare (xargs :mode :program :stobjs state))
  (mv-let (now state) (read-run-time state)
    (let* ((time (- now start))
           (word (cond (proved "PROVED") ((<= limit time) "TIMEOUT") (t "FAILED"))))
      (mv-let (col state)
        (fmx "~%LEMMA ~s0 ~s1 ~x2~%" (symbol-name name) word (floor (* 1000 time) 1))
        (declare (ignore col))
        (value '(value-triple :invisible))))))

(defun limit-of (state)
  (declare (xargs :mode :program :stobjs state))
  (if (boundp-global 'lemma-seconds state) (f-get-global 'lemma-seconds state) 30))

; A linear rule is tried where a term occurs that its conclusion bounds, with an IFIX around it or, where it is known to be an
; integer, without.

(mutual-recursion
 (defun bounded-terms (x)
   (declare (xargs :mode :program))
   (cond ((atom x) nil)
         ((and (eq (car x) 'ifix) (consp (cadr x))) (list x (cadr x)))
         (t (some-bounded-terms (cdr x)))))
 (defun some-bounded-terms (x)
   (declare (xargs :mode :program))
   (if (atom x) nil (union-equal (bounded-terms (car x)) (some-bounded-terms (cdr x))))))

(defun linear-class (term)
  (declare (xargs :mode :program))
  (let ((triggers (bounded-terms (if (and (consp term) (eq (car term) 'vcg::implies)) (caddr term) term))))
    (if triggers `(:linear :trigger-terms ,triggers) :linear)))

; A rule is made of each part of a conclusion that is an AND. The lemma is the same: only F is false.

(defun parted (term)
  (declare (xargs :mode :program))
  (case-match term
    (('vcg::implies hypotheses conclusion) `(implies ,hypotheses ,(parted conclusion)))
    (('vcg::and . parts) `(and ,@parts))
    (& term)))

(defun classes-of (classes term)
  (declare (xargs :mode :program))
  (cond ((atom classes) nil)
        ((eq (car classes) 'vcg::rewrite) (cons :rewrite (classes-of (cdr classes) term)))
        ((eq (car classes) 'vcg::linear) (cons (linear-class term) (classes-of (cdr classes) term)))
        (t (cons (car classes) (classes-of (cdr classes) term)))))

(defun lemma-of (name classes term options wrld)
  (declare (xargs :mode :program))
  (let* ((term (term-of term wrld)) (classes (classes-of classes term)) (term (if classes (parted term) term)))
    `(let ((limit (limit-of state)))
       (mv-let (start state) (read-run-time state)
         (mv-let (failed proved state)
           (with-prover-time-limit
            limit
            ,(if classes `(defthm ,name ,term :rule-classes ,classes ,@options) `(thm ,term ,@options)))
           (declare (ignore proved))
           (er-progn
            (told ',name (not failed) start limit state)
            (value (if (or failed ,(null classes))
                       '(value-triple :invisible)
                     '(defthm ,name ,term :rule-classes ,classes ,@options)))))))))

(defmacro vcg::prove-lemma (name classes term &rest options)
  `(with-output
     :off :all
     (make-event
      (list 'make-event (lemma-of ',name ',classes ',term ',options (w state))))))
