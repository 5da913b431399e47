; Lemmas of the functions of terms that proofs of conditions need again and again.
;
; The functions themselves are closed at the end of the first part: from there on, and for whoever includes this book, what
; is known of them is what these lemmas say. `(in-theory (enable vcg::elt ..))` opens them again.

(in-package "ACL2")

; ---- numbers and truth values

(defthm ifix-of-integer
  (implies (integerp x) (equal (ifix x) x)))

(defthm ifix-of-truth
  (and (equal (ifix t) 0) (equal (ifix nil) 0)))

(defthm integers-are-their-numbers
  (equal (equal x (ifix x)) (integerp x)))

(defthm integerp-ifix
  (integerp (ifix x))
  :rule-classes :type-prescription)

(defthm sums-are-integers
  (implies (and (integerp x) (integerp y)) (integerp (+ x y))))

(defthm products-are-integers
  (implies (and (integerp x) (integerp y)) (integerp (* x y))))

(defthm negatives-are-integers
  (implies (integerp x) (integerp (- x))))

; A value that is defined, of a known type.

(defthm integers-are-defined
  (implies (integerp x) (vcg::defined x)))

(defthm defined-integer
  (implies (and (vcg::defined x) (vcg::celli x l h))
           (and (integerp x) (<= (ifix l) x) (<= x (ifix h))))
  :rule-classes ((:forward-chaining :trigger-terms ((vcg::celli x l h)))))

(defthm celli-of-integer
  (implies (integerp x)
           (equal (vcg::celli x l h) (and (<= (ifix l) x) (<= x (ifix h))))))

(defthm defined-truth
  (implies (and (vcg::defined x) (vcg::celll x))
           (booleanp x))
  :rule-classes ((:forward-chaining :trigger-terms ((vcg::celll x)))))

(defthm defined-of-boolean
  (implies (booleanp x) (vcg::defined x)))

(defthm celll-of-boolean
  (implies (booleanp x) (vcg::celll x)))

; ---- lists of cells

(local
 (defthm integer-cells-nth
   (implies (and (integer-cells-p cells l h) (natp k) (< k (len cells)))
            (vcg::celli (nth k cells) l h))))

(local
 (defthm logical-cells-nth
   (implies (and (logical-cells-p cells) (natp k) (< k (len cells)))
            (vcg::celll (nth k cells)))))

; A cell of a list in range.

(defthm cell-of-integers
  (implies (and (vcg::cellsi a n l h) (<= 1 (ifix i)) (<= (ifix i) (ifix n)))
           (vcg::celli (vcg::elt a i) l h))
  :hints (("Goal" :in-theory (disable vcg::celli))))

(defthm cell-of-truths
  (implies (and (vcg::cellsl a n) (<= 1 (ifix i)) (<= (ifix i) (ifix n)))
           (vcg::celll (vcg::elt a i)))
  :hints (("Goal" :in-theory (disable vcg::celll))))

(defthm defined-cell-of-integers
  (implies (and (vcg::cellsi a n l h) (<= 1 (ifix i)) (<= (ifix i) (ifix n)) (vcg::defined (vcg::elt a i)))
           (integerp (vcg::elt a i)))
  :hints (("Goal" :use (cell-of-integers) :in-theory (disable vcg::elt vcg::cellsi cell-of-integers))))

(defthm defined-cell-of-integers-in-range
  (implies (and (vcg::cellsi a n l h) (<= 1 (ifix i)) (<= (ifix i) (ifix n)) (vcg::defined (vcg::elt a i)))
           (and (<= (ifix l) (vcg::elt a i)) (<= (vcg::elt a i) (ifix h))))
  :rule-classes :linear
  :hints (("Goal" :use (cell-of-integers) :in-theory (disable vcg::elt vcg::cellsi cell-of-integers))))

(defthm defined-cell-of-truths
  (implies (and (vcg::cellsl a n) (<= 1 (ifix i)) (<= (ifix i) (ifix n)) (vcg::defined (vcg::elt a i)))
           (booleanp (vcg::elt a i)))
  :hints (("Goal" :use (cell-of-truths) :in-theory (disable vcg::elt vcg::cellsl cell-of-truths))))

; What stands at a place behind a PUT, and its size.

(local (defthm len-of-update (implies (and (natp k) (< k (len cells))) (equal (len (update-nth k v cells)) (len cells)))))

(defthm elt-of-put
  (equal (vcg::elt (vcg::put a i v) j)
         (if (and (equal (ifix i) (ifix j)) (<= 1 (ifix i)) (<= (ifix i) (vcg::size a)) (not (cells-p v)))
             v
           (vcg::elt a j))))

(defthm elt-of-put-there
  (implies (and (<= 1 (ifix i)) (<= (ifix i) (vcg::size a)) (not (cells-p v)))
           (equal (vcg::elt (vcg::put a i v) i) v)))

(defthm elt-of-put-elsewhere
  (implies (not (equal (ifix i) (ifix j)))
           (equal (vcg::elt (vcg::put a i v) j) (vcg::elt a j))))

(defthm size-of-put
  (equal (vcg::size (vcg::put a i v)) (vcg::size a)))

(local
 (defthm integer-cells-update
   (implies (and (integer-cells-p cells l h) (vcg::celli v l h) (natp k) (< k (len cells)))
            (integer-cells-p (update-nth k v cells) l h))))

(local
 (defthm logical-cells-update
   (implies (and (logical-cells-p cells) (vcg::celll v) (natp k) (< k (len cells)))
            (logical-cells-p (update-nth k v cells)))))

(defthm cellsi-of-put
  (implies (and (vcg::cellsi a n l h) (vcg::celli v l h))
           (vcg::cellsi (vcg::put a i v) n l h))
  :hints (("Goal" :in-theory (disable vcg::celli))))

(defthm cellsl-of-put
  (implies (and (vcg::cellsl a n) (vcg::celll v))
           (vcg::cellsl (vcg::put a i v) n))
  :hints (("Goal" :in-theory (disable vcg::celll))))

(defthm size-of-integers
  (implies (vcg::cellsi a n l h) (equal (vcg::size a) (ifix n)))
  :rule-classes ((:rewrite :match-free :all) :forward-chaining))

(defthm size-of-truths
  (implies (vcg::cellsl a n) (equal (vcg::size a) (ifix n)))
  :rule-classes ((:rewrite :match-free :all) :forward-chaining))

; A place counts by its number.

(defthm elt-of-number
  (equal (vcg::elt a (ifix i)) (vcg::elt a i)))

(defthm put-of-number
  (equal (vcg::put a (ifix i) v) (vcg::put a i v)))

(defthm integers-are-no-cells
  (implies (integerp v) (not (cells-p v))))

(defthm defined-values-are-no-cells
  (implies (vcg::defined v) (not (cells-p v))))

(defthm integer-cells-are-no-lists
  (implies (vcg::celli v l h) (not (cells-p v)))
  :rule-classes ((:rewrite :match-free :all)))

(defthm truth-cells-are-no-lists
  (implies (vcg::celll v) (not (cells-p v))))

; A list without values.

(local (defthm len-of-undefined-cells (equal (len (undefined-cells n)) (nfix n))))

(local (defthm undefined-cells-are-integer-cells (integer-cells-p (undefined-cells n) l h)))

(local (defthm undefined-cells-are-logical-cells (logical-cells-p (undefined-cells n))))

(local (defun both-fall (k n) (if (zp n) k (both-fall (1- k) (1- n)))))

(local
 (defthm nth-of-undefined-cells
   (implies (and (natp k) (< k (nfix n))) (equal (nth k (undefined-cells n)) :undef))
   :hints (("Goal" :induct (both-fall k n)))))

(defthm size-of-blank
  (equal (vcg::size (vcg::blank n)) (nfix n)))

(defthm elt-of-blank
  (equal (vcg::elt (vcg::blank n) i) :undef))

(defthm cellsi-of-blank
  (equal (vcg::cellsi (vcg::blank n) m l h) (equal (nfix n) (ifix m))))

(defthm cellsl-of-blank
  (equal (vcg::cellsl (vcg::blank n) m) (equal (nfix n) (ifix m))))

; ---- quotients, and what is left
;
; For a divisor that is a constant these are all that linear arithmetic needs.

(local
 (defthm quotient-of-naturals
   (implies (and (natp i) (posp j))
            (and (<= (* j (nonnegative-integer-quotient i j)) i)
                 (< i (+ j (* j (nonnegative-integer-quotient i j))))))
   :rule-classes :linear))

(local
 (defthm product-with-a-negative
   (equal (* b (- q)) (- (* b q)))
   :hints (("Goal" :use ((:instance distributivity (x b) (y q) (z (- q))))))))

(local
 (defthm quotient-is-at-most
   (implies (and (natp i) (posp j))
            (<= (nonnegative-integer-quotient i j) i))
   :rule-classes :linear))

(defthm integerp-zquo
  (integerp (vcg::zquo a b))
  :rule-classes :type-prescription)

(defthm integerp-zrem
  (integerp (vcg::zrem a b))
  :rule-classes :type-prescription)

(defthm zquo-of-naturals
  (implies (and (integerp a) (integerp b) (<= 0 a) (< 0 b))
           (and (<= 0 (vcg::zquo a b))
                (<= (vcg::zquo a b) a)
                (<= (* b (vcg::zquo a b)) a)
                (< a (+ b (* b (vcg::zquo a b))))))
  :rule-classes :linear)

(defthm zquo-of-a-negative
  (implies (and (integerp a) (integerp b) (<= a 0) (< 0 b))
           (and (<= (vcg::zquo a b) 0)
                (<= a (vcg::zquo a b))
                (<= a (* b (vcg::zquo a b)))
                (< (+ (* b (vcg::zquo a b)) (- b)) a)))
  :rule-classes :linear)

(defthm zquo-of-bounded
  (implies (and (integerp a) (<= l a) (<= a h) (<= l 0) (<= 0 h) (<= l (- h)))
           (and (<= l (vcg::zquo a b))
                (<= (vcg::zquo a b) (- l))))
  :rule-classes ((:linear :match-free :all))
  :hints (("Goal" :use ((:instance quotient-is-at-most (i (abs a)) (j (abs (ifix b)))))
                  :in-theory (disable quotient-is-at-most quotient-of-naturals nonnegative-integer-quotient))))

(defthm zrem-of-naturals
  (implies (and (integerp a) (integerp b) (<= 0 a) (< 0 b))
           (and (<= 0 (vcg::zrem a b))
                (<= (vcg::zrem a b) a)
                (< (vcg::zrem a b) b)))
  :rule-classes :linear)

(defthm zrem-of-a-negative
  (implies (and (integerp a) (integerp b) (<= a 0) (< 0 b))
           (and (<= (vcg::zrem a b) 0)
                (<= a (vcg::zrem a b))
                (< (- b) (vcg::zrem a b))))
  :rule-classes :linear)

(defthm zquo-and-zrem
  (implies (and (integerp a) (integerp b))
           (equal (+ (vcg::zrem a b) (* b (vcg::zquo a b))) a))
  :rule-classes ((:linear :trigger-terms ((vcg::zrem a b)))))

(in-theory (disable ifix cells-p vcg::elt vcg::put vcg::size vcg::defined vcg::celli vcg::celll vcg::cellsi vcg::cellsl
                    vcg::blank vcg::zquo vcg::zrem))

; ---- products of bounded integers

(defthm product-of-naturals
  (implies (and (integerp a) (integerp b) (<= 0 a) (<= 0 b))
           (<= 0 (* a b)))
  :rule-classes :linear)

(local
 (defthm product-between
   (implies (and (integerp a) (integerp b) (rationalp l) (rationalp h) (<= l a) (<= a h))
            (and (<= (* a b) (max (* l b) (* h b)))
                 (<= (min (* l b) (* h b)) (* a b))))
   :rule-classes nil
   :hints (("Goal" :cases ((<= 0 b)) :nonlinearp t))))

; Where constants bound both factors, the product lies between the least and the greatest of the four products of bounds.

(defthm product-of-bounded
  (implies (and (<= l a) (syntaxp (quotep l)) (<= a h) (syntaxp (quotep h))
                (<= m b) (syntaxp (quotep m)) (<= b n) (syntaxp (quotep n))
                (integerp a) (integerp b) (integerp l) (integerp h) (integerp m) (integerp n))
           (and (<= (* a b) (max (max (* l m) (* l n)) (max (* h m) (* h n))))
                (<= (min (min (* l m) (* l n)) (min (* h m) (* h n))) (* a b))))
  :rule-classes ((:linear :match-free :all))
  :hints (("Goal" :use ((:instance product-between)
                        (:instance product-between (a b) (b l) (l m) (h n))
                        (:instance product-between (a b) (b h) (l m) (h n)))
                  :in-theory (disable product-of-naturals))))

; ---- clocks of several parts
;
; A clock has fallen where its first part has fallen, or has not risen and the rest has fallen; that is linear arithmetic, and
; needs no lemma. These say what it is good for: such clocks are ordinals that fall, so that no loop goes round for ever.

(defun clock-of-two (a b)
  (make-ord 1 (1+ a) b))

(defun clock-of-three (a b c)
  (make-ord 2 (1+ a) (clock-of-two b c)))

(defun clock-of-four (a b c d)
  (make-ord 3 (1+ a) (clock-of-three b c d)))

(defthm clocks-are-ordinals
  (implies (and (natp a) (natp b) (natp c) (natp d))
           (and (o-p (clock-of-two a b)) (o-p (clock-of-three a b c)) (o-p (clock-of-four a b c d))))
  :rule-classes nil)

(defthm clocks-of-two-fall
  (implies (and (natp a) (natp b) (natp i) (natp j)
                (vcg::or (vcg::zlessp a i) (vcg::and (vcg::zleq a i) (vcg::zlessp b j))))
           (o< (clock-of-two a b) (clock-of-two i j)))
  :rule-classes nil)

(defthm clocks-of-three-fall
  (implies (and (natp a) (natp b) (natp c) (natp i) (natp j) (natp k)
                (vcg::or (vcg::zlessp a i)
                         (vcg::and (vcg::zleq a i)
                                   (vcg::or (vcg::zlessp b j) (vcg::and (vcg::zleq b j) (vcg::zlessp c k))))))
           (o< (clock-of-three a b c) (clock-of-three i j k)))
  :rule-classes nil)

(defthm clocks-of-four-fall
  (implies (and (natp a) (natp b) (natp c) (natp d) (natp i) (natp j) (natp k) (natp l)
                (vcg::or (vcg::zlessp a i)
                         (vcg::and (vcg::zleq a i)
                                   (vcg::or (vcg::zlessp b j)
                                            (vcg::and (vcg::zleq b j)
                                                      (vcg::or (vcg::zlessp c k)
                                                               (vcg::and (vcg::zleq c k) (vcg::zlessp d l))))))))
           (o< (clock-of-four a b c d) (clock-of-four i j k l)))
  :rule-classes nil)
