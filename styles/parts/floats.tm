<assign|figure-nr|0>
<assign|table-nr|0>
<assign|image|<macro|x|<if|<equal|<get-arity|<quote-arg|x>>|0>|[picture <arg|x>]|[picture]>>>
<assign|postscript|<value|image>>
<assign|graphics|<xmacro|x|[picture]>>
<assign|draw-over|<value|graphics>>

# What is shown, and below it :name and the caption
<assign|:float|<quote|<document|<with|par-mode|center|par-first|0mcell|<eval|<value|?x>>>|\
    <with|par-mode|center|par-first|0mcell|<strong|<value|:name>. ><eval|<value|:flat-y>>>>>>
<assign|big-figure|<macro|x|y|<assign|figure-nr|<plus|<value|figure-nr>|1>>\
    <assign|the-label|<merge|<value|:prefix>|<value|figure-nr>>>\
    <with|:name|<merge|Figure |<value|the-label>>|<eval|<value|:float>>>>>
<assign|figure|<value|big-figure>>
<assign|small-figure|<value|big-figure>>
<assign|big-figure*|<macro|x|y|<with|:name|Figure|<eval|<value|:float>>>>>
<assign|small-figure*|<value|big-figure*>>
<assign|big-table|<macro|x|y|<assign|table-nr|<plus|<value|table-nr>|1>>\
    <assign|the-label|<merge|<value|:prefix>|<value|table-nr>>><with|:name|<merge|Table |<value|the-label>>|\
    <eval|<value|:float>>>>>
<assign|small-table|<value|big-table>>
<assign|big-table*|<macro|x|y|<with|:name|Table|<eval|<value|:float>>>>>
<assign|small-table*|<value|big-table*>>
<assign|render-big-figure|<macro|type|z|x|y|<with|:name|<eval|<value|?z>>|<eval|<value|:float>>>>>
<assign|render-small-figure|<value|render-big-figure>>
<assign|float|<macro|y|z|x|<eval|<value|?x>>>>
<assign|phantom-float|<value|index>>
<assign|caption|<value|abbr>>
