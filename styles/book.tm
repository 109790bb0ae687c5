<\body>
<assign|:prefix|>
<assign|the-label|>
<assign|the-section|>
<assign|par-first|1.5fn>
<assign|:one|<macro|x|i|1>>
<assign|?x|<quote|<if|<equal|<get-arity|<map-args|:one|merge|x>>|0>|<arg|x>|>>>
<assign|?y|<quote|<if|<equal|<get-arity|<map-args|:one|merge|y>>|0>|<arg|y>|>>>
<assign|?z|<quote|<if|<equal|<get-arity|<map-args|:one|merge|z>>|0>|<arg|z>|>>>
<assign|:each|<macro|x|i|<arg|x>>>
<assign|:spaced|<macro|x|i|<if|<equal|<arg|i>|0>|| ><arg|x>>>
<assign|:listed|<macro|x|i|<if|<equal|<arg|i>|0>||, ><arg|x>>>
<assign|:flat-x|<quote|<if|<equal|<map-args|:one|merge|x>|>|<eval|<value|?x>>|<if|<equal|<get-label|<quote-arg|x>>|document>|<map-args|:spaced|concat|x>|<eval|<value|?x>>>>>>
<assign|:flat-y|<quote|<if|<equal|<map-args|:one|merge|y>|>|<eval|<value|?y>>|<if|<equal|<get-label|<quote-arg|y>>|document>|<map-args|:spaced|concat|y>|<eval|<value|?y>>>>>>
<assign|:part|<macro|x|i|<document|<concat|<if|<equal|<arg|i>|0>|<value|:head>|><arg|x><if|<equal|<arg|i>|<value|:last>>|<value|:tail>|>>>>>
<assign|:run|<quote|<with|:last|<minus|<length|<map-args|:one|merge|x>>|1>|<if|<equal|<map-args|:one|merge|x>|>|<value|:head><eval|<value|?x>><value|:tail>|<if|<equal|<get-label|<quote-arg|x>>|document>|<map-args|:part|concat|x>|<value|:head><eval|<value|?x>><value|:tail>>>>>>
<assign|:to-letter|<macro|n|<if|<and|<greater|<arg|n>|0>|<less|<arg|n>|27>>|<range|abcdefghijklmnopqrstuvwxyz|<minus|<arg|n>|1>|<arg|n>>|<arg|n>>>>
<assign|:to-Letter|<macro|n|<if|<and|<greater|<arg|n>|0>|<less|<arg|n>|27>>|<range|ABCDEFGHIJKLMNOPQRSTUVWXYZ|<minus|<arg|n>|1>|<arg|n>>|<arg|n>>>>
<assign|:to-roman|<macro|n|<if|<and|<greater|<arg|n>|0>|<less|<arg|n>|21>>|<look-up|<tuple|i|ii|iii|iv|v|vi|vii|viii|ix|x|xi|xii|xiii|xiv|xv|xvi|xvii|xviii|xix|xx>|<minus|<arg|n>|1>>|<arg|n>>>>
<assign|:to-Roman|<macro|n|<if|<and|<greater|<arg|n>|0>|<less|<arg|n>|21>>|<look-up|<tuple|I|II|III|IV|V|VI|VII|VIII|IX|X|XI|XII|XIII|XIV|XV|XVI|XVII|XVIII|XIX|XX>|<minus|<arg|n>|1>>|<arg|n>>>>

<assign|doc-data|<xmacro|x|<map-args|:each|concat|x><next-line>>>
<assign|make-title|<value|doc-data>>
<assign|title-data|<value|doc-data>>
<assign|doc-title|<macro|x|<document|<with|par-mode|center|par-first|0mcell|font-series|bold|<eval|<value|?x>>>>>>
<assign|doc-subtitle|<macro|x|<document|<with|par-mode|center|par-first|0mcell|font-shape|italic|<eval|<value|?x>>>>>>
<assign|doc-author|<xmacro|x|<map-args|:each|concat|x>>>
<assign|author-data|<xmacro|x|<document|><map-args|:each|concat|x>>>
<assign|author-name|<macro|x|<document|<with|par-mode|center|par-first|0mcell|<name|<eval|<value|?x>>>>>>>
<assign|author-affiliation|<value|doc-subtitle>>
<assign|author-address|<value|doc-subtitle>>
<assign|author-misc|<value|doc-subtitle>>
<assign|author-email|<macro|x|<document|<with|par-mode|center|par-first|0mcell|font-family|tt|<eval|<value|?x>>>>>>
<assign|author-homepage|<value|author-email>>
<assign|author-note|<macro|x|<document|<with|par-mode|center|par-first|0mcell|<eval|<value|?x>>>>>>
<assign|doc-date|<value|author-note>>
<assign|doc-note|<value|author-note>>
<assign|doc-misc|<value|author-note>>
<assign|title|<value|doc-title>>
<assign|author|<value|author-name>>
<assign|address|<value|doc-subtitle>>
<assign|title-date|<value|doc-date>>
<assign|date|<macro|x|<eval|<value|?x>>>>
<assign|doc-running-title|<macro|x|>>
<assign|doc-running-author|<value|doc-running-title>>
<assign|doc-inactive|<value|doc-running-title>>
<assign|doc-keywords-hidden|<value|doc-running-title>>
<assign|abstract-data|<xmacro|x|<document|<with|par-mode|center|par-first|0mcell|font-series|bold|Abstract>><map-args|:each|concat|x>>>
<assign|abstract|<macro|x|<with|par-left|<plus|<value|par-left>|4spc>|par-right|<plus|<value|par-right>|4spc>|par-first|0mcell|<arg|x>>>>
<assign|:keywords|<quote|<document|<with|par-left|<plus|<value|par-left>|4spc>|par-right|<plus|<value|par-right>|4spc>|par-first|0mcell|<strong|<value|:name>: ><map-args|:listed|concat|x>>>>>
<assign|abstract-keywords|<xmacro|x|<with|:name|Keywords|<eval|<value|:keywords>>>>>
<assign|abstract-msc|<xmacro|x|<with|:name|A.M.S. subject classification|<eval|<value|:keywords>>>>>
<assign|abstract-acm|<xmacro|x|<with|:name|ACM subject classification|<eval|<value|:keywords>>>>>
<assign|abstract-pacs|<xmacro|x|<with|:name|PACS subject classification|<eval|<value|:keywords>>>>>
<assign|abstract-arxiv|<xmacro|x|<with|:name|arXiv subject classification|<eval|<value|:keywords>>>>>

<assign|part-nr|0>
<assign|section-nr|0>
<assign|subsection-nr|0>
<assign|subsubsection-nr|0>
<assign|appendix-nr|0>
<assign|:section|0>
<assign|:heading|<quote|<assign|the-label|<value|the-section>><with|font-series|bold|<next-line><value|:head><eval|<value|?x>>>>>
<assign|section*|<macro|x|<with|font-series|bold|<next-line><eval|<value|?x>>>>>
<assign|subsection*|<value|section*>>
<assign|subsubsection*|<value|section*>>
<assign|appendix*|<value|section*>>
<assign|chapter*|<value|section*>>
<assign|part*|<value|section*>>
<assign|part-title|<value|section*>>
<assign|prologue|<value|section*>>
<assign|epilogue|<value|section*>>
<assign|part|<macro|x|<assign|part-nr|<plus|<value|part-nr>|1>><assign|the-section|<:to-Roman|<value|part-nr>>><with|:head|Part <value|the-section>. |<eval|<value|:heading>>>>>
<assign|section|<macro|x|<assign|section-nr|<plus|<value|section-nr>|1>><assign|subsection-nr|0><assign|subsubsection-nr|0><assign|:section|<merge|<value|:prefix>|<value|section-nr>>><assign|the-section|<value|:section>><with|:head|<value|the-section> |<eval|<value|:heading>>>>>
<assign|subsection|<macro|x|<assign|subsection-nr|<plus|<value|subsection-nr>|1>><assign|subsubsection-nr|0><assign|the-section|<merge|<value|:section>|.|<value|subsection-nr>>><with|:head|<value|the-section> |<eval|<value|:heading>>>>>
<assign|subsubsection|<macro|x|<assign|subsubsection-nr|<plus|<value|subsubsection-nr>|1>><assign|the-section|<merge|<value|:section>|.|<value|subsection-nr>|.|<value|subsubsection-nr>>><with|:head|<value|the-section> |<eval|<value|:heading>>>>>
<assign|paragraph|<macro|x|<with|par-first|0mcell|font-series|bold|<eval|<value|?x>> >>>
<assign|paragraph*|<value|paragraph>>
<assign|subparagraph|<value|paragraph>>
<assign|subparagraph*|<value|paragraph>>

<assign|chapter-nr|0>
<assign|:chapter|<quote|<assign|the-section|<value|:number>><assign|:prefix|<merge|<value|:number>|.>><assign|section-nr|0><assign|subsection-nr|0><assign|subsubsection-nr|0><assign|theorem-nr|0><assign|exercise-nr|0><assign|equation-nr|0><assign|figure-nr|0><assign|table-nr|0><eval|<value|:heading>>>>
<assign|chapter|<macro|x|<assign|chapter-nr|<plus|<value|chapter-nr>|1>><with|:number|<value|chapter-nr>|:head|<concat|Chapter <value|chapter-nr>|<next-line>>|<eval|<value|:chapter>>>>>
<assign|appendix|<macro|x|<assign|appendix-nr|<plus|<value|appendix-nr>|1>><with|:number|<:to-Letter|<value|appendix-nr>>|<with|:head|<concat|Appendix <value|:number>|<next-line>>|<eval|<value|:chapter>>>>>>

<assign|theorem-nr|0>
<assign|exercise-nr|0>
<assign|:tail|>
<assign|:counted|<quote|<assign|theorem-nr|<plus|<value|theorem-nr>|1>><assign|the-label|<merge|<value|:prefix>|<value|theorem-nr>>><with|:head|<next-line><with|font-series|bold|font-shape|right|<value|:name> <value|the-label>. >|<eval|<value|:run>>>>>
<assign|:counted-exercise|<quote|<assign|exercise-nr|<plus|<value|exercise-nr>|1>><assign|the-label|<merge|<value|:prefix>|<value|exercise-nr>>><with|:head|<next-line><with|font-series|bold|font-shape|right|<value|:name> <value|the-label>. >|<eval|<value|:run>>>>>
<assign|:uncounted|<quote|<with|:head|<next-line><with|font-series|bold|font-shape|right|<value|:name>. >|<eval|<value|:run>>>>>
<assign|theorem|<macro|x|<with|:name|Theorem|font-shape|italic|<eval|<value|:counted>>>>>
<assign|theorem*|<macro|x|<with|:name|Theorem|font-shape|italic|<eval|<value|:uncounted>>>>>
<assign|proposition|<macro|x|<with|:name|Proposition|font-shape|italic|<eval|<value|:counted>>>>>
<assign|proposition*|<macro|x|<with|:name|Proposition|font-shape|italic|<eval|<value|:uncounted>>>>>
<assign|lemma|<macro|x|<with|:name|Lemma|font-shape|italic|<eval|<value|:counted>>>>>
<assign|lemma*|<macro|x|<with|:name|Lemma|font-shape|italic|<eval|<value|:uncounted>>>>>
<assign|corollary|<macro|x|<with|:name|Corollary|font-shape|italic|<eval|<value|:counted>>>>>
<assign|corollary*|<macro|x|<with|:name|Corollary|font-shape|italic|<eval|<value|:uncounted>>>>>
<assign|axiom|<macro|x|<with|:name|Axiom|font-shape|italic|<eval|<value|:counted>>>>>
<assign|axiom*|<macro|x|<with|:name|Axiom|font-shape|italic|<eval|<value|:uncounted>>>>>
<assign|conjecture|<macro|x|<with|:name|Conjecture|font-shape|italic|<eval|<value|:counted>>>>>
<assign|conjecture*|<macro|x|<with|:name|Conjecture|font-shape|italic|<eval|<value|:uncounted>>>>>
<assign|definition|<macro|x|<with|:name|Definition|<eval|<value|:counted>>>>>
<assign|definition*|<macro|x|<with|:name|Definition|<eval|<value|:uncounted>>>>>
<assign|notation|<macro|x|<with|:name|Notation|<eval|<value|:counted>>>>>
<assign|notation*|<macro|x|<with|:name|Notation|<eval|<value|:uncounted>>>>>
<assign|convention|<macro|x|<with|:name|Convention|<eval|<value|:counted>>>>>
<assign|convention*|<macro|x|<with|:name|Convention|<eval|<value|:uncounted>>>>>
<assign|remark|<macro|x|<with|:name|Remark|<eval|<value|:counted>>>>>
<assign|remark*|<macro|x|<with|:name|Remark|<eval|<value|:uncounted>>>>>
<assign|note|<macro|x|<with|:name|Note|<eval|<value|:counted>>>>>
<assign|note*|<macro|x|<with|:name|Note|<eval|<value|:uncounted>>>>>
<assign|example|<macro|x|<with|:name|Example|<eval|<value|:counted>>>>>
<assign|example*|<macro|x|<with|:name|Example|<eval|<value|:uncounted>>>>>
<assign|warning|<macro|x|<with|:name|Warning|<eval|<value|:counted>>>>>
<assign|warning*|<macro|x|<with|:name|Warning|<eval|<value|:uncounted>>>>>
<assign|question|<macro|x|<with|:name|Question|<eval|<value|:counted>>>>>
<assign|question*|<macro|x|<with|:name|Question|<eval|<value|:uncounted>>>>>
<assign|exercise|<macro|x|<with|:name|Exercise|<eval|<value|:counted-exercise>>>>>
<assign|exercise*|<macro|x|<with|:name|Exercise|<eval|<value|:uncounted>>>>>
<assign|problem|<macro|x|<with|:name|Problem|<eval|<value|:counted-exercise>>>>>
<assign|problem*|<macro|x|<with|:name|Problem|<eval|<value|:uncounted>>>>>
<assign|acknowledgments|<macro|x|<with|:name|Acknowledgments|<eval|<value|:uncounted>>>>>
<assign|acknowledgments*|<value|acknowledgments>>
<assign|answer|<macro|x|<with|:name|Answer|<eval|<value|:uncounted>>>>>
<assign|answer*|<value|answer>>
<assign|algorithm|<macro|x|<with|:name|Algorithm|<eval|<value|:uncounted>>>>>
<assign|algorithm*|<value|algorithm>>
<assign|solution|<macro|x|<with|:head|<with|font-shape|italic|Solution. >|par-first|0mcell|<eval|<value|:run>>>>>
<assign|solution*|<value|solution>>
<assign|proof|<macro|x|<with|:head|<with|font-shape|italic|Proof. >|:tail| \<#25A1\>|par-first|0mcell|<eval|<value|:run>>>>>
<assign|proof-of|<macro|y|x|<with|:head|<with|font-shape|italic|<eval|<value|?y>>. >|:tail| \<#25A1\>|par-first|0mcell|<eval|<value|:run>>>>>
<assign|render-proof|<value|proof-of>>
<assign|render-theorem|<macro|y|x|<with|:head|<next-line><with|font-series|bold|font-shape|right|<eval|<value|?y>>. >|<eval|<value|:run>>>>>
<assign|render-remark|<value|render-theorem>>
<assign|render-exercise|<value|render-theorem>>
<assign|render-solution|<value|render-theorem>>
<assign|dueto|<macro|x|(<with|font-shape|right|<eval|<value|?x>>>) >>
<assign|qed|<macro|\<#25A1\>>>

<assign|item-nr|0>
<assign|item-kind|bullet-3>
<assign|:mark-bullet-1|<quote|\<#2022\> >>
<assign|:mark-bullet-2|<quote|\<#25E6\> >>
<assign|:mark-bullet-3|<quote|- >>
<assign|:mark-minus|<quote|- >>
<assign|:mark-arrow|<quote|\<rightarrow\> >>
<assign|:mark-number|<quote|<merge|<value|item-nr>|. >>>
<assign|:mark-alpha|<quote|<merge|<:to-letter|<value|item-nr>>|) >>>
<assign|:mark-Alpha|<quote|<merge|<:to-Letter|<value|item-nr>>|) >>>
<assign|:mark-roman|<quote|<merge|<:to-roman|<value|item-nr>>|. >>>
<assign|:mark-Roman|<quote|<merge|<:to-Roman|<value|item-nr>>|. >>>
<assign|itemize|<macro|x|<with|par-left|<plus|<value|par-left>|4spc>|par-first|0mcell|item-nr|0|item-kind|<case|<equal|<value|item-kind>|bullet-1>|bullet-2|<equal|<value|item-kind>|bullet-2>|bullet-3|bullet-1>|<arg|x>>>>
<assign|enumerate|<macro|x|<with|par-left|<plus|<value|par-left>|4spc>|par-first|0mcell|item-nr|0|item-kind|<case|<equal|<value|item-kind>|number>|alpha|<equal|<value|item-kind>|alpha>|roman|number>|<arg|x>>>>
<assign|itemize-dot|<macro|x|<with|par-left|<plus|<value|par-left>|4spc>|par-first|0mcell|item-nr|0|item-kind|bullet-1|<arg|x>>>>
<assign|itemize-minus|<macro|x|<with|par-left|<plus|<value|par-left>|4spc>|par-first|0mcell|item-nr|0|item-kind|minus|<arg|x>>>>
<assign|itemize-arrow|<macro|x|<with|par-left|<plus|<value|par-left>|4spc>|par-first|0mcell|item-nr|0|item-kind|arrow|<arg|x>>>>
<assign|enumerate-numeric|<macro|x|<with|par-left|<plus|<value|par-left>|4spc>|par-first|0mcell|item-nr|0|item-kind|number|<arg|x>>>>
<assign|enumerate-roman|<macro|x|<with|par-left|<plus|<value|par-left>|4spc>|par-first|0mcell|item-nr|0|item-kind|roman|<arg|x>>>>
<assign|enumerate-Roman|<macro|x|<with|par-left|<plus|<value|par-left>|4spc>|par-first|0mcell|item-nr|0|item-kind|Roman|<arg|x>>>>
<assign|enumerate-alpha|<macro|x|<with|par-left|<plus|<value|par-left>|4spc>|par-first|0mcell|item-nr|0|item-kind|alpha|<arg|x>>>>
<assign|enumerate-Alpha|<macro|x|<with|par-left|<plus|<value|par-left>|4spc>|par-first|0mcell|item-nr|0|item-kind|Alpha|<arg|x>>>>
<assign|description|<macro|x|<with|par-left|<plus|<value|par-left>|4spc>|par-first|0mcell|item-nr|0|item-kind|minus|<arg|x>>>>
<assign|description-compact|<value|description>>
<assign|description-aligned|<value|description>>
<assign|description-dash|<value|description>>
<assign|description-long|<value|description>>
<assign|description-paragraphs|<value|description>>
<assign|item|<macro|<assign|item-nr|<plus|<value|item-nr>|1>><assign|the-label|<value|item-nr>><with|:mark|<eval|<value|<merge|:mark-|<value|item-kind>>>>|<with|par-first|<times|-1spc|<length|<value|:mark>>>|font-shape|right|<value|:mark>>>>>
<assign|item*|<macro|x|<with|par-first|-4spc|font-series|bold|font-shape|right|<eval|<value|?x>> >>>

<assign|footnote-nr|0>
<assign|em|<macro|x|<with|font-shape|<if|<equal|<value|font-shape>|italic>|right|italic>|<if|<equal|<get-arity|<map-args|:one|merge|x>>|0>|<arg|x>|>>>>
<assign|emph|<value|em>>
<assign|strong|<macro|x|<with|font-series|bold|<eval|<value|?x>>>>>
<assign|dfn|<macro|x|<with|font-shape|italic|<eval|<value|?x>>>>>
<assign|cite*|<value|dfn>>
<assign|name|<macro|x|<with|font-shape|small-caps|<eval|<value|?x>>>>>
<assign|person|<value|name>>
<assign|sc|<value|name>>
<assign|samp|<macro|x|<with|font-family|tt|<eval|<value|?x>>>>>
<assign|tt|<value|samp>>
<assign|code*|<value|samp>>
<assign|kbd|<value|samp>>
<assign|key|<value|samp>>
<assign|var|<value|samp>>
<assign|cpp|<value|samp>>
<assign|scm|<value|samp>>
<assign|shell|<value|samp>>
<assign|mmx|<value|samp>>
<assign|python|<value|samp>>
<assign|src-arg|<value|samp>>
<assign|src-macro|<value|samp>>
<assign|src-var|<value|samp>>
<assign|abbr|<macro|x|<eval|<value|?x>>>>
<assign|acronym|<value|abbr>>
<assign|localize|<value|abbr>>
<assign|underline|<value|abbr>>
<assign|overline|<value|abbr>>
<assign|strike-through|<value|abbr>>
<assign|text|<value|abbr>>
<assign|op|<value|abbr>>
<assign|rigid|<value|abbr>>
<assign|mbox|<value|abbr>>
<assign|smash|<value|abbr>>
<assign|resize|<value|abbr>>
<assign|move|<value|abbr>>
<assign|shift|<value|abbr>>
<assign|clipped|<value|abbr>>
<assign|scale|<value|abbr>>
<assign|with-link|<value|abbr>>
<assign|repeat-body|<value|abbr>>
<assign|active|<value|abbr>>
<assign|inactive|<value|abbr>>
<assign|protected|<value|abbr>>
<assign|really-tiny|<value|abbr>>
<assign|tiny|<value|abbr>>
<assign|very-small|<value|abbr>>
<assign|small|<value|abbr>>
<assign|smaller|<value|abbr>>
<assign|normal-size|<value|abbr>>
<assign|normal|<value|abbr>>
<assign|large|<value|abbr>>
<assign|larger|<value|abbr>>
<assign|very-large|<value|abbr>>
<assign|huge|<value|abbr>>
<assign|really-huge|<value|abbr>>
<assign|show-preamble|<value|abbr>>
<assign|hide-preamble|<macro|x|<with|:hidden|<eval|<value|?x>>|>>>
<assign|quotation|<macro|x|<with|par-left|<plus|<value|par-left>|4spc>|par-right|<plus|<value|par-right>|4spc>|par-first|0mcell|<arg|x>>>>
<assign|quote-env|<value|quotation>>
<assign|verse|<value|quotation>>
<assign|jump-in|<value|quotation>>
<assign|indent-both|<value|quotation>>
<assign|center|<macro|x|<with|par-mode|center|par-first|0mcell|<arg|x>>>>
<assign|centered|<value|center>>
<assign|padded-center|<value|center>>
<assign|left-aligned|<macro|x|<with|par-mode|left|par-first|0mcell|<arg|x>>>>
<assign|left-flush|<value|left-aligned>>
<assign|right-aligned|<macro|x|<with|par-mode|right|par-first|0mcell|<arg|x>>>>
<assign|right-flush|<value|right-aligned>>
<assign|flushright|<value|right-aligned>>
<assign|indent|<macro|x|<with|par-left|<plus|<value|par-left>|4spc>|<arg|x>>>>
<assign|indent-left|<value|indent>>
<assign|indent-right|<macro|x|<with|par-right|<plus|<value|par-right>|4spc>|<arg|x>>>>
<assign|framed|<macro|x|<with|par-left|<plus|<value|par-left>|2spc>|par-right|<plus|<value|par-right>|2spc>|par-first|0mcell|<arg|x>>>>
<assign|ornamented|<value|framed>>
<assign|shadowed|<value|framed>>
<assign|padded|<macro|x|<with|par-first|0mcell|<arg|x>>>>
<assign|padded*|<value|padded>>
<assign|padded-normal|<value|padded>>
<assign|compressed|<value|padded>>
<assign|narrow|<value|framed>>
<assign|:line|<macro|x|i|<document|<concat|<hspace|1spc>|<arg|x>>>>>
<assign|verbatim|<macro|x|<with|font-family|tt|<if|<equal|<map-args|:one|merge|x>|>|<eval|<value|?x>>|<if|<equal|<get-label|<quote-arg|x>>|document>|<with|par-mode|left|par-left|<plus|<value|par-left>|1spc>|par-first|0mcell|<map-args|:line|concat|x>>|<eval|<value|?x>>>>>>>
<assign|code|<value|verbatim>>
<assign|verbatim-code|<value|verbatim>>
<assign|cpp-code|<value|verbatim>>
<assign|scm-code|<value|verbatim>>
<assign|shell-code|<value|verbatim>>
<assign|python-code|<value|verbatim>>
<assign|mmx-code|<value|verbatim>>
<assign|scilab-code|<value|verbatim>>
<assign|java-code|<value|verbatim>>
<assign|scala-code|<value|verbatim>>
<assign|fortran-code|<value|verbatim>>
<assign|program|<value|verbatim>>
<assign|pseudo-code|<value|verbatim>>
<assign|hlink|<macro|x|y|<with|color|blue|<eval|<value|?x>>><if|<or|<equal|<quote-arg|x>|<quote-arg|y>>|<equal|<quote-arg|y>|<error|missing|y>>>|| [<arg|y>]>>>
<assign|slink|<macro|x|<with|color|blue|<eval|<value|?x>>>>>
<assign|href|<value|slink>>
<assign|footnote|<macro|x|<assign|footnote-nr|<plus|<value|footnote-nr>|1>><assign|the-label|<value|footnote-nr>><with|font-shape|right|font-series|medium| [<value|footnote-nr>: <eval|<value|:flat-x>>]>>>
<assign|marginal-note|<macro|y|z|x|<with|font-series|medium| [<eval|<value|:flat-x>>]>>>
<assign|todo|<macro|x|<with|color|red|[<eval|<value|?x>>]>>>
<assign|TeXmacs|<macro|TeXmacs>>
<assign|TeX|<macro|TeX>>
<assign|LaTeX|<macro|LaTeX>>
<assign|emdash|<macro|\<#2014\>>>
<assign|nbsp|<macro|\<nbsp\>>>
<assign|newblock|<macro| >>
<assign|space|<macro|x|<if|<equal|<get-arity|<plus|0spc|<arg|x>>>|0>|<hspace|<arg|x>>| >>>
<assign|htab|<macro|x|<hspace|4spc>>>
<assign|new-line|<macro|<next-line>>>
<assign|line-break-here|<value|new-line>>
<assign|line-break|<macro|\<#200B\>>>
<assign|page-break|<macro|<new-page>>>
<assign|no-indent|<macro|<with|par-first|0mcell|<hspace|0spc>>>>
<assign|no-indent*|<value|no-indent>>
<assign|yes-indent|<macro|<with|par-first|1.5fn|<hspace|0spc>>>>
<assign|yes-indent*|<value|yes-indent>>
<assign|hrule|<macro|<with|par-first|0mcell|\<#2500\>\<#2500\>\<#2500\>\<#2500\>\<#2500\>\<#2500\>\<#2500\>\<#2500\>\<#2500\>\<#2500\>\<#2500\>\<#2500\>\<#2500\>\<#2500\>\<#2500\>\<#2500\>\<#2500\>\<#2500\>\<#2500\>\<#2500\>>>>
<assign|index|<xmacro|x|>>
<assign|subindex|<value|index>>
<assign|subsubindex|<value|index>>
<assign|glossary|<value|index>>
<assign|phantom|<value|index>>
<assign|set-prefix|<value|index>>
<assign|set-header|<value|index>>
<assign|set-footer|<value|index>>
<assign|set-this-page-header|<value|index>>
<assign|set-this-page-footer|<value|index>>
<assign|footnotemark|<value|index>>
<assign|locus-id|<value|index>>
<assign|vspace*|<value|index>>
<assign|no-break|<value|index>>
<assign|no-break-here|<value|index>>
<assign|no-page-break|<value|index>>
<assign|no-page-break*|<value|index>>
<assign|page-break*|<value|index>>
<assign|new-page*|<value|index>>
<assign|new-dpage|<value|index>>
<assign|new-dpage*|<value|index>>
<assign|datoms|<macro|y|x|<eval|<value|?x>>>>
<assign|specific|<macro|y|x|<if|<or|<equal|<quote-arg|y>|texmacs>|<equal|<quote-arg|y>|screen>>|<eval|<value|?x>>|>>>

<assign|equation-nr|0>
<assign|equation|<macro|x|<assign|equation-nr|<plus|<value|equation-nr>|1>><assign|the-label|<merge|<value|:prefix>|<value|equation-nr>>><with|par-mode|center|par-first|0mcell|mode|math|:head||:tail|<hspace|4spc>(<value|the-label>)|<eval|<value|:run>>>>>
<assign|equation*|<macro|x|<with|par-mode|center|par-first|0mcell|mode|math|<arg|x>>>>
<assign|displayed-math|<value|equation*>>
<assign|math|<macro|x|<with|mode|math|<if|<equal|<get-arity|<map-args|:one|merge|x>>|0>|<arg|x>|>>>>
<assign|:in-brackets-x|<quote|<if|<equal|<map-args|:one|merge|x>|>|<if|<or|<lesseq|<length|<quote-arg|x>>|1>|<equal|<get-arity|<plus|0|<quote-arg|x>>>|0>>|<arg|x>|(<arg|x>)>|<if|<equal|<get-arity|<map-args|:one|merge|x>>|0>|(<arg|x>)|>>>>
<assign|:in-brackets-y|<quote|<if|<equal|<map-args|:one|merge|y>|>|<if|<or|<lesseq|<length|<quote-arg|y>>|1>|<equal|<get-arity|<plus|0|<quote-arg|y>>>|0>>|<arg|y>|(<arg|y>)>|<if|<equal|<get-arity|<map-args|:one|merge|y>>|0>|(<arg|y>)|>>>>
<assign|rsub|<macro|x|_<eval|<value|:in-brackets-x>>>>
<assign|lsub|<value|rsub>>
<assign|rsup|<macro|x|^<eval|<value|:in-brackets-x>>>>
<assign|lsup|<value|rsup>>
<assign|rprime|<value|abbr>>
<assign|lprime|<value|abbr>>
<assign|frac|<macro|x|y|<eval|<value|:in-brackets-x>>/<eval|<value|:in-brackets-y>>>>
<assign|dfrac|<value|frac>>
<assign|tfrac|<value|frac>>
<assign|cfrac|<value|frac>>
<assign|frac*|<value|frac>>
<assign|sqrt|<macro|x|y|<eval|<value|?y>>\<#221A\><eval|<value|:in-brackets-x>>>>
<assign|left|<macro|x|<if|<equal|<quote-arg|x>|.>||<eval|<value|?x>>>>>
<assign|mid|<value|left>>
<assign|right|<value|left>>
<assign|around|<macro|x|y|z|<if|<equal|<quote-arg|x>|.>||<eval|<value|?x>>><eval|<value|?y>><if|<equal|<quote-arg|z>|.>||<eval|<value|?z>>>>>
<assign|around*|<value|around>>
<assign|:big-sum|\<#2211\>>
<assign|:big-prod|\<#220F\>>
<assign|:big-amalg|\<#2210\>>
<assign|:big-int|\<#222B\>>
<assign|:big-iint|\<#222C\>>
<assign|:big-iiint|\<#222D\>>
<assign|:big-oint|\<#222E\>>
<assign|:big-cap|\<#22C2\>>
<assign|:big-cup|\<#22C3\>>
<assign|:big-wedge|\<#22C0\>>
<assign|:big-vee|\<#22C1\>>
<assign|:big-oplus|\<#2A01\>>
<assign|:big-otimes|\<#2A02\>>
<assign|:big-.|>
<assign|big|<macro|x|<if|<equal|<get-arity|<quote-arg|x>>|0>|<if|<provides|<merge|:big-|<quote-arg|x>>>|<value|<merge|:big-|<quote-arg|x>>>|<arg|x>>|<eval|<value|?x>>>>>
<assign|:wide-^|\<#302\>>
<assign|:wide-~|\<#303\>>
<assign|:wide-\<hat\>|\<#302\>>
<assign|:wide-\<tilde\>|\<#303\>>
<assign|:wide-\<bar\>|\<#304\>>
<assign|:wide-\<vect\>|\<#20D7\>>
<assign|:wide-\<dot\>|\<#307\>>
<assign|:wide-\<ddot\>|\<#308\>>
<assign|:wide-\<check\>|\<#30C\>>
<assign|:wide-\<breve\>|\<#306\>>
<assign|:wide-\<acute\>|\<#301\>>
<assign|:wide-\<grave\>|\<#300\>>
<assign|:wide-\<abovering\>|\<#30A\>>
<assign|wide|<macro|x|y|<eval|<value|?x>><if|<equal|<get-arity|<quote-arg|y>>|0>|<if|<provides|<merge|:wide-|<quote-arg|y>>>|<value|<merge|:wide-|<quote-arg|y>>>|>|>>>
<assign|wide*|<value|abbr>>
<assign|neg|<macro|x|<eval|<value|?x>>\<#338\>>>
<assign|above|<macro|x|y|<eval|<value|?x>>^<eval|<value|:in-brackets-y>>>>
<assign|below|<macro|x|y|<eval|<value|?x>>_<eval|<value|:in-brackets-y>>>>
<assign|binom|<macro|x|y|(<eval|<value|?x>> over <eval|<value|?y>>)>>
<assign|long-arrow|<macro|x|y|z|<eval|<value|?y>><eval|<value|?x>>>>
<assign|math-up|<value|abbr>>
<assign|math-it|<value|abbr>>
<assign|math-bf|<value|abbr>>
<assign|math-ss|<value|abbr>>
<assign|bbb|<value|abbr>>
<assign|cal|<value|abbr>>
<assign|frak|<value|abbr>>

<assign|:table-x|<quote|<if|<equal|<map-args|:one|merge|x>|>|<eval|<value|?x>>|<if|<or|<equal|<get-label|<quote-arg|x>>|tformat>|<equal|<get-label|<quote-arg|x>>|table>>|<tabular|<arg|x>>|<eval|<value|?x>>>>>>
<assign|block|<macro|x|<with|par-first|0mcell|<eval|<value|:table-x>>>>>
<assign|wide-tabular|<value|block>>
<assign|wide-block|<value|block>>
<assign|tabular*|<macro|x|<with|par-mode|center|par-first|0mcell|<eval|<value|:table-x>>>>>
<assign|block*|<value|tabular*>>
<assign|:columns-x|<quote|<if|<equal|<map-args|:one|merge|x>|>|<eval|<value|?x>>|<if|<and|<equal|<get-label|<quote-arg|x>>|document>|<equal|<get-label|<quote-arg|x|0>>|tformat>>|<tabular|<tformat|<cwith|1|-1|1|1|cell-halign|<value|:first>>|<cwith|1|-1|2|2|cell-halign|<value|:second>>|<cwith|1|-1|3|3|cell-halign|<value|:third>>|<arg|x|0|<minus|<get-arity|<quote-arg|x|0>>|1>>>>|<eval|<value|?x>>>>>>
<assign|eqnarray*|<macro|x|<with|par-mode|center|par-first|0mcell|mode|math|:first|r|:second|c|:third|l|<eval|<value|:columns-x>>>>>
<assign|eqnarray|<value|eqnarray*>>
<assign|align*|<macro|x|<with|par-mode|center|par-first|0mcell|mode|math|:first|r|:second|l|:third|r|<eval|<value|:columns-x>>>>>
<assign|align|<value|align*>>
<assign|gather*|<macro|x|<with|par-mode|center|par-first|0mcell|mode|math|:first|c|:second|l|:third|l|<eval|<value|:columns-x>>>>>
<assign|gather|<value|gather*>>
<assign|multline*|<value|gather*>>
<assign|multline|<value|gather*>>
<assign|:cells|<quote|<while|<less|<value|:j>|<get-arity|<quote-arg|x|<value|:t>|<value|:i>>>>|<if|<equal|<value|:j>|0>||, ><arg|x|<value|:t>|<value|:i>|<value|:j>|0><assign|:j|<plus|<value|:j>|1>>>>>
<assign|:entries|<quote|<while|<less|<value|:i>|<get-arity|<quote-arg|x|<value|:t>>>>|<if|<equal|<value|:i>|0>||; ><with|:j|0|<eval|<value|:cells>>><assign|:i|<plus|<value|:i>|1>>>>>
<assign|:entries-x|<quote|<if|<equal|<map-args|:one|merge|x>|>|<eval|<value|?x>>|<if|<equal|<get-label|<quote-arg|x>>|tformat>|<with|:t|<minus|<get-arity|<quote-arg|x>>|1>|:i|0|<eval|<value|:entries>>>|<eval|<value|?x>>>>>>
<assign|matrix|<macro|x|(<eval|<value|:entries-x>>)>>
<assign|bmatrix|<macro|x|[<eval|<value|:entries-x>>]>>
<assign|det|<macro|x|\|<eval|<value|:entries-x>>\|>>
<assign|choice|<macro|x|{<eval|<value|:entries-x>>>>
<assign|stack|<macro|x|<eval|<value|:entries-x>>>>

<assign|figure-nr|0>
<assign|table-nr|0>
<assign|image|<macro|x|<if|<equal|<get-arity|<quote-arg|x>>|0>|[picture <arg|x>]|[picture]>>>
<assign|postscript|<value|image>>
<assign|graphics|<xmacro|x|[picture]>>
<assign|draw-over|<value|graphics>>
<assign|:float|<quote|<document|<with|par-mode|center|par-first|0mcell|<eval|<value|?x>>>|<with|par-mode|center|par-first|0mcell|<strong|<value|:name>. ><eval|<value|:flat-y>>>>>>
<assign|big-figure|<macro|x|y|<assign|figure-nr|<plus|<value|figure-nr>|1>><assign|the-label|<merge|<value|:prefix>|<value|figure-nr>>><with|:name|<merge|Figure |<value|the-label>>|<eval|<value|:float>>>>>
<assign|figure|<value|big-figure>>
<assign|small-figure|<value|big-figure>>
<assign|big-figure*|<macro|x|y|<with|:name|Figure|<eval|<value|:float>>>>>
<assign|small-figure*|<value|big-figure*>>
<assign|big-table|<macro|x|y|<assign|table-nr|<plus|<value|table-nr>|1>><assign|the-label|<merge|<value|:prefix>|<value|table-nr>>><with|:name|<merge|Table |<value|the-label>>|<eval|<value|:float>>>>>
<assign|small-table|<value|big-table>>
<assign|big-table*|<macro|x|y|<with|:name|Table|<eval|<value|:float>>>>>
<assign|small-table*|<value|big-table*>>
<assign|render-big-figure|<macro|type|z|x|y|<with|:name|<eval|<value|?z>>|<eval|<value|:float>>>>>
<assign|render-small-figure|<value|render-big-figure>>
<assign|float|<macro|y|z|x|<eval|<value|?x>>>>
<assign|phantom-float|<value|index>>
<assign|caption|<value|abbr>>

<assign|cite|<xmacro|x|[<map-args|:listed|concat|x>]>>
<assign|cite-raw|<xmacro|x|<map-args|:listed|concat|x>>>
<assign|cite-detail|<macro|x|y|[<eval|<value|?x>>, <eval|<value|?y>>]>>
<assign|nocite|<value|index>>
<assign|bibliography|<macro|y|z|file|x|<concat|<document|<section*|References>>|<eval|<value|?x>>>>>
<assign|bibliography*|<macro|z|style|file|y|x|<concat|<document|<section*|<eval|<value|?y>>>>|<eval|<value|?x>>>>>
<assign|bib-list|<macro|y|x|<with|par-left|<plus|<value|par-left>|4spc>|par-first|0mcell|<arg|x>>>>
<assign|bibitem*|<macro|x|<assign|the-label|<eval|<value|?x>>><if|<equal|<get-arity|<value|the-label>>|0>|<with|:mark|<merge|[|<value|the-label>|] >|<with|par-first|<times|-1spc|<length|<value|:mark>>>|<value|:mark>>>|<with|par-first|-4spc|[<value|the-label>] >>>>
<assign|bibitem|<value|bibitem*>>
<assign|table-of-contents|<macro|y|x|<concat|<document|<section*|Contents>>|<eval|<value|?x>>>>>
<assign|the-index|<macro|y|x|<concat|<document|<section*|Index>>|<eval|<value|?x>>>>>
<assign|the-glossary|<macro|y|x|<concat|<document|<section*|Glossary>>|<eval|<value|?x>>>>>
<assign|list-of-figures|<macro|y|x|<concat|<document|<section*|List of figures>>|<eval|<value|?x>>>>>
<assign|list-of-tables|<macro|y|x|<concat|<document|<section*|List of tables>>|<eval|<value|?x>>>>>
</body>
