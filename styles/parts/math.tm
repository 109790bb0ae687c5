<assign|equation-nr|0>
<assign|equation|<macro|x|<assign|equation-nr|<plus|<value|equation-nr>|1>>\
    <assign|the-label|<merge|<value|:prefix>|<value|equation-nr>>>\
    <with|par-mode|center|par-first|0mcell|mode|math|:head||:tail|<hspace|4spc>(<value|the-label>)|\
    <eval|<value|:run>>>>>
<assign|equation*|<macro|x|<with|par-mode|center|par-first|0mcell|mode|math|<arg|x>>>>
<assign|displayed-math|<value|equation*>>
<assign|math|<macro|x|<with|mode|math|<if|<equal|<get-arity|<map-args|:one|merge|x>>|0>|<arg|x>|>>>>

# In brackets, where it is neither a number nor one sign
<assign|:in-brackets-x|<quote|<if|<equal|<map-args|:one|merge|x>|>|\
    <if|<or|<lesseq|<length|<quote-arg|x>>|1>|<equal|<get-arity|<plus|0|<quote-arg|x>>>|0>>|<arg|x>|(<arg|x>)>|\
    <if|<equal|<get-arity|<map-args|:one|merge|x>>|0>|(<arg|x>)|>>>>
<assign|:in-brackets-y|<quote|<if|<equal|<map-args|:one|merge|y>|>|\
    <if|<or|<lesseq|<length|<quote-arg|y>>|1>|<equal|<get-arity|<plus|0|<quote-arg|y>>>|0>>|<arg|y>|(<arg|y>)>|\
    <if|<equal|<get-arity|<map-args|:one|merge|y>>|0>|(<arg|y>)|>>>>

<assign|rsub|<macro|x|_<eval|<value|:in-brackets-x>>>>
<assign|lsub|<value|rsub>>
<assign|rsup|<macro|x|^<eval|<value|:in-brackets-x>>>>
<assign|lsup|<value|rsup>>
<assign|rprime|<value|abbr>>
<assign|lprime|<value|abbr>>
<assign|frac|<macro|x|y|<eval|<value|:in-brackets-x>>/<eval|<value|:in-brackets-y>>>>
<assign|dfrac|<value|frac>>
<assign|tfrac|<value|frac>>
<assign|cfrac|<value|frac>>
<assign|frac*|<value|frac>>
<assign|sqrt|<macro|x|y|<eval|<value|?y>>\<#221A\><eval|<value|:in-brackets-x>>>>
<assign|left|<macro|x|<if|<equal|<quote-arg|x>|.>||<eval|<value|?x>>>>>
<assign|mid|<value|left>>
<assign|right|<value|left>>
<assign|around|<macro|x|y|z|<if|<equal|<quote-arg|x>|.>||<eval|<value|?x>>><eval|<value|?y>>\
    <if|<equal|<quote-arg|z>|.>||<eval|<value|?z>>>>>
<assign|around*|<value|around>>

# Large signs by their names
<assign|:big-sum|\<#2211\>>
<assign|:big-prod|\<#220F\>>
<assign|:big-amalg|\<#2210\>>
<assign|:big-int|\<#222B\>>
<assign|:big-iint|\<#222C\>>
<assign|:big-iiint|\<#222D\>>
<assign|:big-oint|\<#222E\>>
<assign|:big-cap|\<#22C2\>>
<assign|:big-cup|\<#22C3\>>
<assign|:big-wedge|\<#22C0\>>
<assign|:big-vee|\<#22C1\>>
<assign|:big-oplus|\<#2A01\>>
<assign|:big-otimes|\<#2A02\>>
<assign|:big-.|>
<assign|big|<macro|x|<if|<equal|<get-arity|<quote-arg|x>>|0>|\
    <if|<provides|<merge|:big-|<quote-arg|x>>>|<value|<merge|:big-|<quote-arg|x>>>|<arg|x>>|<eval|<value|?x>>>>>

# Accents, which go on the last letter
<assign|:wide-^|\<#302\>>
<assign|:wide-~|\<#303\>>
<assign|:wide-\<hat\>|\<#302\>>
<assign|:wide-\<tilde\>|\<#303\>>
<assign|:wide-\<bar\>|\<#304\>>
<assign|:wide-\<vect\>|\<#20D7\>>
<assign|:wide-\<dot\>|\<#307\>>
<assign|:wide-\<ddot\>|\<#308\>>
<assign|:wide-\<check\>|\<#30C\>>
<assign|:wide-\<breve\>|\<#306\>>
<assign|:wide-\<acute\>|\<#301\>>
<assign|:wide-\<grave\>|\<#300\>>
<assign|:wide-\<abovering\>|\<#30A\>>
<assign|wide|<macro|x|y|<eval|<value|?x>><if|<equal|<get-arity|<quote-arg|y>>|0>|\
    <if|<provides|<merge|:wide-|<quote-arg|y>>>|<value|<merge|:wide-|<quote-arg|y>>>|>|>>>
<assign|wide*|<value|abbr>>
<assign|neg|<macro|x|<eval|<value|?x>>\<#338\>>>
<assign|above|<macro|x|y|<eval|<value|?x>>^<eval|<value|:in-brackets-y>>>>
<assign|below|<macro|x|y|<eval|<value|?x>>_<eval|<value|:in-brackets-y>>>>
<assign|binom|<macro|x|y|(<eval|<value|?x>> over <eval|<value|?y>>)>>
<assign|long-arrow|<macro|x|y|z|<eval|<value|?y>><eval|<value|?x>>>>
<assign|math-up|<value|abbr>>
<assign|math-it|<value|abbr>>
<assign|math-bf|<value|abbr>>
<assign|math-ss|<value|abbr>>
<assign|bbb|<value|abbr>>
<assign|cal|<value|abbr>>
<assign|frak|<value|abbr>>
