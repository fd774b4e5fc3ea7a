\version "2.24.0"
\header { title = "A page" composer = "Nobody" tagline = ##f }
\score { \new StaffGroup << \new Staff \relative c' { \key d \major \time 4/4 \repeat unfold 8 { d4 e fis g | a8 b cis d e,4 a | << { d4 cis } \\ { fis,4 e } >> d2 | } } \new Staff { \clef bass \repeat unfold 8 { d2 a, | g,4 a, d2 | d4 a, d2 | } } >> \layout { } \midi { } }
