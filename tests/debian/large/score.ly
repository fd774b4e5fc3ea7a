\version "2.24.0"
% A score of some pages: four staves, voices, lyrics, slurs, dynamics, ornaments, changes of key and time; and its sound.
\header { title = "A score" composer = "Nobody" tagline = ##f }
\paper { #(set-paper-size "a4") }
high = \relative c'' { \repeat unfold 8 {
  \key d \major \time 4/4 d8(\p\< e fis g a4.\trill g8) | fis16 e d cis b8\! a g4-. fis-. | << { a'4 b cis d } \\ { fis,8 g a b a g fis e } >> |
  \tuplet 3/2 { d8 e fis } \tuplet 3/2 { g fis e } d2\fermata | \key f \major \time 3/4 c4\f( d e | f2.)~ | f4 e8[ d c bes] | a2 r4 } }
words = \lyricmode { \repeat unfold 8 { Sing a song of four and twen -- ty notes and then a -- gain a lit -- tle long -- er song is sung __ } }
middle = \relative c' { \repeat unfold 8 {
  \key d \major \time 4/4 <d fis a>4 q q q | <b d g>2 <a cis e> | \repeat tremolo 8 { d16 a } | R1 |
  \key f \major \time 3/4 \appoggiatura g16 <f a>2.-> | c8-. d-. e-. f-. g-. a-. | \acciaccatura b8 <c, e g>2 bes'4 | <a f>2.\arpeggio } }
low = \relative c { \clef bass \repeat unfold 8 {
  \key d \major \time 4/4 d2 a | g4 a d,2 | d8 d' d, d' d, d' d, d' | d,1\prall |
  \key f \major \time 3/4 c2.-\markup { \italic "sempre" } | f8( g a bes c d) | c4-> c,-> c-> | f2. } }
\score {
  << \new Staff \with { instrumentName = "Flute" } << \new Voice = "one" \high \new Lyrics \lyricsto "one" \words >>
     \new PianoStaff << \new Staff \middle \new Staff \low >>
     \new TabStaff \low >>
  \layout { } \midi { \tempo 4 = 100 } }
