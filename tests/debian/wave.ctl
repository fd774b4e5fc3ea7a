; A pulse in a bent waveguide, in two dimensions.
(set! geometry-lattice (make lattice (size 8 8 no-size)))
(set! geometry (list
  (make block (center -1 -1.5) (size 6 1 infinity) (material (make dielectric (epsilon 12))))
  (make block (center 1.5 1) (size 1 6 infinity) (material (make dielectric (epsilon 12))))))
(set! sources (list (make source (src (make gaussian-src (frequency 0.15) (fwidth 0.1))) (component Ez) (center -3.5 -1.5) (size 0 1))))
(set! pml-layers (list (make pml (thickness 1.0))))
(set! resolution 10)
(define through (add-flux 0.15 0.1 20 (make flux-region (center 1.5 2.5) (size 2 0))))
(run-sources+ 60 (at-every 5 (lambda () (print "ez:, " (meep-time) ", " (real-part (get-field-point Ez (vector3 1.5 2.5))) "\n"))))
(display-fluxes through)
