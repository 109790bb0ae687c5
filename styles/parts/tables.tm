# The argument x as a table, where it is one, and else as it is
<assign|:table-x|<quote|<if|<equal|<map-args|:one|merge|x>|>|<eval|<value|?x>>|\
    <if|<or|<equal|<get-label|<quote-arg|x>>|tformat>|<equal|<get-label|<quote-arg|x>>|table>>|<tabular|<arg|x>>|\
    <eval|<value|?x>>>>>>
<assign|block|<macro|x|<with|par-first|0mcell|<eval|<value|:table-x>>>>>
<assign|wide-tabular|<value|block>>
<assign|wide-block|<value|block>>
<assign|tabular*|<macro|x|<with|par-mode|center|par-first|0mcell|<eval|<value|:table-x>>>>>
<assign|block*|<value|tabular*>>

# Formulas in columns: the table that is the one paragraph of the block x, with sides of its first three columns
<assign|:columns-x|<quote|<if|<equal|<map-args|:one|merge|x>|>|<eval|<value|?x>>|\
    <if|<and|<equal|<get-label|<quote-arg|x>>|document>|<equal|<get-label|<quote-arg|x|0>>|tformat>>|\
    <tabular|<tformat|<cwith|1|-1|1|1|cell-halign|<value|:first>>|<cwith|1|-1|2|2|cell-halign|<value|:second>>|\
    <cwith|1|-1|3|3|cell-halign|<value|:third>>|<arg|x|0|<minus|<get-arity|<quote-arg|x|0>>|1>>>>|\
    <eval|<value|?x>>>>>>
<assign|eqnarray*|<macro|x|<with|par-mode|center|par-first|0mcell|mode|math|:first|r|:second|c|:third|l|\
    <eval|<value|:columns-x>>>>>
<assign|eqnarray|<value|eqnarray*>>
<assign|align*|<macro|x|<with|par-mode|center|par-first|0mcell|mode|math|:first|r|:second|l|:third|r|\
    <eval|<value|:columns-x>>>>>
<assign|align|<value|align*>>
<assign|gather*|<macro|x|<with|par-mode|center|par-first|0mcell|mode|math|:first|c|:second|l|:third|l|\
    <eval|<value|:columns-x>>>>>
<assign|gather|<value|gather*>>
<assign|multline*|<value|gather*>>
<assign|multline|<value|gather*>>

# A table in one line: commas between cells, semicolons between rows. Each cell is led to from x itself, once.
<assign|:cells|<quote|<while|<less|<value|:j>|<get-arity|<quote-arg|x|<value|:t>|<value|:i>>>>|\
    <if|<equal|<value|:j>|0>||, ><arg|x|<value|:t>|<value|:i>|<value|:j>|0><assign|:j|<plus|<value|:j>|1>>>>>
<assign|:entries|<quote|<while|<less|<value|:i>|<get-arity|<quote-arg|x|<value|:t>>>>|\
    <if|<equal|<value|:i>|0>||; ><with|:j|0|<eval|<value|:cells>>><assign|:i|<plus|<value|:i>|1>>>>>
<assign|:entries-x|<quote|<if|<equal|<map-args|:one|merge|x>|>|<eval|<value|?x>>|\
    <if|<equal|<get-label|<quote-arg|x>>|tformat>|<with|:t|<minus|<get-arity|<quote-arg|x>>|1>|:i|0|\
    <eval|<value|:entries>>>|<eval|<value|?x>>>>>>
<assign|matrix|<macro|x|(<eval|<value|:entries-x>>)>>
<assign|bmatrix|<macro|x|[<eval|<value|:entries-x>>]>>
<assign|det|<macro|x|\|<eval|<value|:entries-x>>\|>>
<assign|choice|<macro|x|{<eval|<value|:entries-x>>>>
<assign|stack|<macro|x|<eval|<value|:entries-x>>>>
