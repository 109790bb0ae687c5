<assign|points-total|0>
<assign|class|<value|author-note>>
<assign|date|<value|author-note>>
<assign|question|<macro|x|<with|:name|Question|<eval|<value|:counted-exercise>>>>>
<assign|hint|<macro|x|<with|:head|<with|font-shape|italic|Hint. >|par-first|0mcell|<eval|<value|:run>>>>>
<assign|choices|<value|enumerate-Alpha>>

# Only numbers are added up
<assign|points|<macro|x|<if|<equal|<get-arity|<plus|<value|points-total>|<arg|x>>>|0>|\
    <assign|points-total|<plus|<value|points-total>|<arg|x>>>|>(<eval|<value|?x>> <if|\
    <equal|<arg|x>|1>|point|points>) >>
<assign|total-points|<macro|<value|points-total>>>
<assign|blank|<macro|____________>>
