;;; Threads that cons, with locks, tables, strings, objects, big numbers, conditions, weak pointers and compiled functions.
(defun tree (depth) (if (= depth 0) nil (cons (tree (- depth 1)) (tree (- depth 1)))))
(defun size (of) (if (null of) 1 (+ 1 (size (car of)) (size (cdr of)))))
(defun tell (what value) (format t "~a: ~a~%" what value))

(defun in-threads (count work)
  (let ((threads (loop for k below count collect (let ((k k)) (mp:process-run-function 'worker (lambda () (funcall work k)))))))
    (mapcar #'mp:process-join threads)))

(defvar *results* (make-array 8 :initial-element 0))
(in-threads 4 (lambda (k) (setf (aref *results* k) (loop repeat 6 sum (size (tree (+ 9 (mod k 3))))))))
(tell "trees" (coerce *results* 'list))

(in-threads 4 (lambda (k)
  (let ((sum 0))
    (dotimes (i 20000) (incf sum (length (make-list 25 :initial-element i))))
    (setf (aref *results* k) (+ sum k)))))
(tell "lists" (coerce *results* 'list))

;; One table that the threads fill under a lock.
(defvar *lock* (mp:make-lock :name "table"))
(defvar *table* (make-hash-table :test 'equal))
(in-threads 4 (lambda (k)
  (loop for i from k below 20000 by 4
        do (let ((key (format nil "k~d" (mod i 3000))))
             (mp:with-lock (*lock*) (setf (gethash key *table*) (list i (* i i) key)))))))
(tell "table" (hash-table-count *table*))
(tell "keys" (loop for key being the hash-keys of *table* using (hash-value value) always (equal key (third value))))

;; Objects of classes, and functions that close over what they make.
(defclass node () ((left :initarg :left :accessor left) (right :initarg :right :accessor right) (name :initarg :name :reader name)))
(defun nodes (depth) (if (= depth 0) nil (make-instance 'node :left (nodes (- depth 1)) :right (nodes (- depth 1)) :name (make-string depth))))
(defun named (node) (if node (+ (length (name node)) (named (left node)) (named (right node))) 0))
(tell "nodes" (loop repeat 4 collect (named (nodes 11))))
(defun counter () (let ((n 0)) (lambda () (incf n))))
(tell "counters" (let ((all (loop repeat 20000 collect (counter)))) (mapc #'funcall all) (reduce #'+ (mapcar #'funcall all))))

;; Big numbers, strings, vectors that grow, conditions, and what the compiler makes.
(tell "factorial" (length (format nil "~d" (reduce #'* (loop for k from 1 to 1500 collect k)))))
(tell "power" (mod (expt 7 20000) 1000000007))
(tell "strings" (length (format nil "~{~a ~}" (loop for k below 30000 collect (format nil "~x" (* k k))))))
(tell "vector" (let ((all (make-array 0 :adjustable t :fill-pointer t))) (dotimes (k 100000) (vector-push-extend (list k) all)) (car (aref all 99999))))
(tell "conditions" (loop for k below 20000 sum (handler-case (if (oddp k) (error "odd: ~d" k) 1) (error (it) (length (princ-to-string it))))))
(tell "sorted" (subseq (sort (loop for k below 50000 collect (mod (* k 7919) 50021)) #'<) 0 5))
(tell "evaluated" (loop for k below 300 sum (funcall (eval `(lambda (x) (+ x ,k))) 1)))
(tell "weak" (let* ((held (list 1 2 3)) (pointer (ext:make-weak-pointer held)))
  (loop repeat 2000 do (ext:make-weak-pointer (list 1)))
  (ext:gc t)
  (eq held (ext:weak-pointer-value pointer))))
(tell "read" (length (read-from-string (format nil "(~{~a ~})" (loop for k below 400 collect (list k "text" (quote symbol)))))))
(tell "threads that end" (loop repeat 100 sum (length (in-threads 2 (lambda (k) (make-list 200 :initial-element k))))))
