# items.sh [COUNT]: a template of so many items.
{
    echo 'AutoGen Definitions items.tpl;'
    for k in $(seq 1 "${1:-400}"); do echo "item = { name = name$k; value = $((k * k)); };"; done
} >items.def
cat >items.tpl <<'TEMPLATE'
[+ AutoGen5 template txt +]
[+ FOR item +][+ (define text (string-append (get "name") "-" (number->string (* 2 (string->number (get "value"))))))
(string-upcase text) +] [+ (string-length (apply string-append (map (lambda (k) (string-append text (number->string k))) (iota 50)))) +]
[+ ENDFOR +]
TEMPLATE
autogen -b items items.def && cat items.txt
