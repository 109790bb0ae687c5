<assign|theorem-nr|0>
<assign|exercise-nr|0>
<assign|:tail|>

# A block after its :name and number, in each of the two counters, and after its :name alone
<assign|:counted|<quote|<assign|theorem-nr|<plus|<value|theorem-nr>|1>>\
    <assign|the-label|<merge|<value|:prefix>|<value|theorem-nr>>>\
    <with|:head|<next-line><with|font-series|bold|font-shape|right|<value|:name> <value|the-label>. >|\
    <eval|<value|:run>>>>>
<assign|:counted-exercise|<quote|<assign|exercise-nr|<plus|<value|exercise-nr>|1>>\
    <assign|the-label|<merge|<value|:prefix>|<value|exercise-nr>>>\
    <with|:head|<next-line><with|font-series|bold|font-shape|right|<value|:name> <value|the-label>. >|\
    <eval|<value|:run>>>>>
<assign|:uncounted|<quote|<with|:head|<next-line><with|font-series|bold|font-shape|right|<value|:name>. >|\
    <eval|<value|:run>>>>>
<assign|theorem|<macro|x|<with|:name|Theorem|font-shape|italic|<eval|<value|:counted>>>>>
<assign|theorem*|<macro|x|<with|:name|Theorem|font-shape|italic|<eval|<value|:uncounted>>>>>
<assign|proposition|<macro|x|<with|:name|Proposition|font-shape|italic|<eval|<value|:counted>>>>>
<assign|proposition*|<macro|x|<with|:name|Proposition|font-shape|italic|<eval|<value|:uncounted>>>>>
<assign|lemma|<macro|x|<with|:name|Lemma|font-shape|italic|<eval|<value|:counted>>>>>
<assign|lemma*|<macro|x|<with|:name|Lemma|font-shape|italic|<eval|<value|:uncounted>>>>>
<assign|corollary|<macro|x|<with|:name|Corollary|font-shape|italic|<eval|<value|:counted>>>>>
<assign|corollary*|<macro|x|<with|:name|Corollary|font-shape|italic|<eval|<value|:uncounted>>>>>
<assign|axiom|<macro|x|<with|:name|Axiom|font-shape|italic|<eval|<value|:counted>>>>>
<assign|axiom*|<macro|x|<with|:name|Axiom|font-shape|italic|<eval|<value|:uncounted>>>>>
<assign|conjecture|<macro|x|<with|:name|Conjecture|font-shape|italic|<eval|<value|:counted>>>>>
<assign|conjecture*|<macro|x|<with|:name|Conjecture|font-shape|italic|<eval|<value|:uncounted>>>>>
<assign|definition|<macro|x|<with|:name|Definition|<eval|<value|:counted>>>>>
<assign|definition*|<macro|x|<with|:name|Definition|<eval|<value|:uncounted>>>>>
<assign|notation|<macro|x|<with|:name|Notation|<eval|<value|:counted>>>>>
<assign|notation*|<macro|x|<with|:name|Notation|<eval|<value|:uncounted>>>>>
<assign|convention|<macro|x|<with|:name|Convention|<eval|<value|:counted>>>>>
<assign|convention*|<macro|x|<with|:name|Convention|<eval|<value|:uncounted>>>>>
<assign|remark|<macro|x|<with|:name|Remark|<eval|<value|:counted>>>>>
<assign|remark*|<macro|x|<with|:name|Remark|<eval|<value|:uncounted>>>>>
<assign|note|<macro|x|<with|:name|Note|<eval|<value|:counted>>>>>
<assign|note*|<macro|x|<with|:name|Note|<eval|<value|:uncounted>>>>>
<assign|example|<macro|x|<with|:name|Example|<eval|<value|:counted>>>>>
<assign|example*|<macro|x|<with|:name|Example|<eval|<value|:uncounted>>>>>
<assign|warning|<macro|x|<with|:name|Warning|<eval|<value|:counted>>>>>
<assign|warning*|<macro|x|<with|:name|Warning|<eval|<value|:uncounted>>>>>
<assign|question|<macro|x|<with|:name|Question|<eval|<value|:counted>>>>>
<assign|question*|<macro|x|<with|:name|Question|<eval|<value|:uncounted>>>>>
<assign|exercise|<macro|x|<with|:name|Exercise|<eval|<value|:counted-exercise>>>>>
<assign|exercise*|<macro|x|<with|:name|Exercise|<eval|<value|:uncounted>>>>>
<assign|problem|<macro|x|<with|:name|Problem|<eval|<value|:counted-exercise>>>>>
<assign|problem*|<macro|x|<with|:name|Problem|<eval|<value|:uncounted>>>>>
<assign|acknowledgments|<macro|x|<with|:name|Acknowledgments|<eval|<value|:uncounted>>>>>
<assign|acknowledgments*|<value|acknowledgments>>
<assign|answer|<macro|x|<with|:name|Answer|<eval|<value|:uncounted>>>>>
<assign|answer*|<value|answer>>
<assign|algorithm|<macro|x|<with|:name|Algorithm|<eval|<value|:uncounted>>>>>
<assign|algorithm*|<value|algorithm>>
<assign|solution|<macro|x|<with|:head|<with|font-shape|italic|Solution. >|par-first|0mcell|<eval|<value|:run>>>>>
<assign|solution*|<value|solution>>
<assign|proof|<macro|x|<with|:head|<with|font-shape|italic|Proof. >|:tail| \<#25A1\>|par-first|0mcell|\
    <eval|<value|:run>>>>>
<assign|proof-of|<macro|y|x|<with|:head|<with|font-shape|italic|\
    <eval|<value|?y>>. >|:tail| \<#25A1\>|par-first|0mcell|<eval|<value|:run>>>>>
<assign|render-proof|<value|proof-of>>
<assign|render-theorem|<macro|y|x|<with|:head|<next-line><with|font-series|bold|font-shape|right|\
    <eval|<value|?y>>. >|<eval|<value|:run>>>>>
<assign|render-remark|<value|render-theorem>>
<assign|render-exercise|<value|render-theorem>>
<assign|render-solution|<value|render-theorem>>
<assign|dueto|<macro|x|(<with|font-shape|right|<eval|<value|?x>>>) >>
<assign|qed|<macro|\<#25A1\>>>
