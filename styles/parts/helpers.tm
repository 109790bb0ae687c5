# What stands before the numbers of sections, theorems, equations and figures: the chapter, or nothing
<assign|:prefix|>

# The number that a reference shows
<assign|the-label|>
<assign|the-section|>
<assign|par-first|1.5fn>

# ?x is the argument x, or nothing where it is missing. map-args is an error of two children where x is missing, and
# else a text: empty where x is a text, and as long as its arity where it is a node. Nothing is evaluated or quoted.
<assign|:one|<macro|x|i|1>>
<assign|?x|<quote|<if|<equal|<get-arity|<map-args|:one|merge|x>>|0>|<arg|x>|>>>
<assign|?y|<quote|<if|<equal|<get-arity|<map-args|:one|merge|y>>|0>|<arg|y>|>>>
<assign|?z|<quote|<if|<equal|<get-arity|<map-args|:one|merge|z>>|0>|<arg|z>|>>>

# Parts side by side; with spaces, and with commas between them
<assign|:each|<macro|x|i|<arg|x>>>
<assign|:spaced|<macro|x|i|<if|<equal|<arg|i>|0>|| ><arg|x>>>
<assign|:listed|<macro|x|i|<if|<equal|<arg|i>|0>||, ><arg|x>>>

# A block in one line: its paragraphs, with spaces between them
<assign|:flat-x|<quote|<if|<equal|<map-args|:one|merge|x>|>|<eval|<value|?x>>|\
    <if|<equal|<get-label|<quote-arg|x>>|document>|<map-args|:spaced|concat|x>|<eval|<value|?x>>>>>>
<assign|:flat-y|<quote|<if|<equal|<map-args|:one|merge|y>|>|<eval|<value|?y>>|\
    <if|<equal|<get-label|<quote-arg|y>>|document>|<map-args|:spaced|concat|y>|<eval|<value|?y>>>>>>

# A block with :head before its first paragraph and :tail after its last, in their lines; a text between the two
<assign|:part|<macro|x|i|<document|<concat|<if|<equal|<arg|i>|0>|<value|:head>|><arg|x>\
    <if|<equal|<arg|i>|<value|:last>>|<value|:tail>|>>>>>
<assign|:run|<quote|<with|:last|<minus|<length|<map-args|:one|merge|x>>|1>|\
    <if|<equal|<map-args|:one|merge|x>|>|<value|:head><eval|<value|?x>><value|:tail>|\
    <if|<equal|<get-label|<quote-arg|x>>|document>|<map-args|:part|concat|x>|<value|:head><eval|<value|?x>>\
    <value|:tail>>>>>>

# Numbers as letters and as roman numbers, as far as they go
<assign|:to-letter|<macro|n|<if|<and|<greater|<arg|n>|0>|<less|<arg|n>|27>>|\
    <range|abcdefghijklmnopqrstuvwxyz|<minus|<arg|n>|1>|<arg|n>>|<arg|n>>>>
<assign|:to-Letter|<macro|n|<if|<and|<greater|<arg|n>|0>|<less|<arg|n>|27>>|\
    <range|ABCDEFGHIJKLMNOPQRSTUVWXYZ|<minus|<arg|n>|1>|<arg|n>>|<arg|n>>>>
<assign|:to-roman|<macro|n|<if|<and|<greater|<arg|n>|0>|<less|<arg|n>|21>>|\
    <look-up|<tuple|i|ii|iii|iv|v|vi|vii|viii|ix|x|xi|xii|xiii|xiv|xv|xvi|xvii|xviii|xix|xx>|<minus|<arg|n>|1>>|\
    <arg|n>>>>
<assign|:to-Roman|<macro|n|<if|<and|<greater|<arg|n>|0>|<less|<arg|n>|21>>|\
    <look-up|<tuple|I|II|III|IV|V|VI|VII|VIII|IX|X|XI|XII|XIII|XIV|XV|XVI|XVII|XVIII|XIX|XX>|<minus|<arg|n>|1>>|\
    <arg|n>>>>
