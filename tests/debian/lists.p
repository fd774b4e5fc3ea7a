@main[]
$h[^hash::create[]]
^for[i](1;2000){$h.[k$i][v^eval($i*$i)]}
^h.foreach[k;v]{$k=$v }
