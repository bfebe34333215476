/** So many locals that some are named by two bytes. */
class ManyLocals {
    static int sum(int from) {
        int v0 = from + 0, v1 = from + 1, v2 = from + 2, v3 = from + 3, v4 = from + 4, v5 = from + 5, v6 = from + 6, v7 = from + 7, v8 = from + 8, v9 = from + 9;
        int v10 = from + 10, v11 = from + 11, v12 = from + 12, v13 = from + 13, v14 = from + 14, v15 = from + 15, v16 = from + 16, v17 = from + 17, v18 = from + 18, v19 = from + 19;
        int v20 = from + 20, v21 = from + 21, v22 = from + 22, v23 = from + 23, v24 = from + 24, v25 = from + 25, v26 = from + 26, v27 = from + 27, v28 = from + 28, v29 = from + 29;
        int v30 = from + 30, v31 = from + 31, v32 = from + 32, v33 = from + 33, v34 = from + 34, v35 = from + 35, v36 = from + 36, v37 = from + 37, v38 = from + 38, v39 = from + 39;
        int v40 = from + 40, v41 = from + 41, v42 = from + 42, v43 = from + 43, v44 = from + 44, v45 = from + 45, v46 = from + 46, v47 = from + 47, v48 = from + 48, v49 = from + 49;
        int v50 = from + 50, v51 = from + 51, v52 = from + 52, v53 = from + 53, v54 = from + 54, v55 = from + 55, v56 = from + 56, v57 = from + 57, v58 = from + 58, v59 = from + 59;
        int v60 = from + 60, v61 = from + 61, v62 = from + 62, v63 = from + 63, v64 = from + 64, v65 = from + 65, v66 = from + 66, v67 = from + 67, v68 = from + 68, v69 = from + 69;
        int v70 = from + 70, v71 = from + 71, v72 = from + 72, v73 = from + 73, v74 = from + 74, v75 = from + 75, v76 = from + 76, v77 = from + 77, v78 = from + 78, v79 = from + 79;
        int v80 = from + 80, v81 = from + 81, v82 = from + 82, v83 = from + 83, v84 = from + 84, v85 = from + 85, v86 = from + 86, v87 = from + 87, v88 = from + 88, v89 = from + 89;
        int v90 = from + 90, v91 = from + 91, v92 = from + 92, v93 = from + 93, v94 = from + 94, v95 = from + 95, v96 = from + 96, v97 = from + 97, v98 = from + 98, v99 = from + 99;
        int v100 = from + 100, v101 = from + 101, v102 = from + 102, v103 = from + 103, v104 = from + 104, v105 = from + 105, v106 = from + 106, v107 = from + 107, v108 = from + 108, v109 = from + 109;
        int v110 = from + 110, v111 = from + 111, v112 = from + 112, v113 = from + 113, v114 = from + 114, v115 = from + 115, v116 = from + 116, v117 = from + 117, v118 = from + 118, v119 = from + 119;
        int v120 = from + 120, v121 = from + 121, v122 = from + 122, v123 = from + 123, v124 = from + 124, v125 = from + 125, v126 = from + 126, v127 = from + 127, v128 = from + 128, v129 = from + 129;
        int v130 = from + 130, v131 = from + 131, v132 = from + 132, v133 = from + 133, v134 = from + 134, v135 = from + 135, v136 = from + 136, v137 = from + 137, v138 = from + 138, v139 = from + 139;
        int v140 = from + 140, v141 = from + 141, v142 = from + 142, v143 = from + 143, v144 = from + 144, v145 = from + 145, v146 = from + 146, v147 = from + 147, v148 = from + 148, v149 = from + 149;
        int v150 = from + 150, v151 = from + 151, v152 = from + 152, v153 = from + 153, v154 = from + 154, v155 = from + 155, v156 = from + 156, v157 = from + 157, v158 = from + 158, v159 = from + 159;
        int v160 = from + 160, v161 = from + 161, v162 = from + 162, v163 = from + 163, v164 = from + 164, v165 = from + 165, v166 = from + 166, v167 = from + 167, v168 = from + 168, v169 = from + 169;
        int v170 = from + 170, v171 = from + 171, v172 = from + 172, v173 = from + 173, v174 = from + 174, v175 = from + 175, v176 = from + 176, v177 = from + 177, v178 = from + 178, v179 = from + 179;
        int v180 = from + 180, v181 = from + 181, v182 = from + 182, v183 = from + 183, v184 = from + 184, v185 = from + 185, v186 = from + 186, v187 = from + 187, v188 = from + 188, v189 = from + 189;
        int v190 = from + 190, v191 = from + 191, v192 = from + 192, v193 = from + 193, v194 = from + 194, v195 = from + 195, v196 = from + 196, v197 = from + 197, v198 = from + 198, v199 = from + 199;
        int v200 = from + 200, v201 = from + 201, v202 = from + 202, v203 = from + 203, v204 = from + 204, v205 = from + 205, v206 = from + 206, v207 = from + 207, v208 = from + 208, v209 = from + 209;
        int v210 = from + 210, v211 = from + 211, v212 = from + 212, v213 = from + 213, v214 = from + 214, v215 = from + 215, v216 = from + 216, v217 = from + 217, v218 = from + 218, v219 = from + 219;
        int v220 = from + 220, v221 = from + 221, v222 = from + 222, v223 = from + 223, v224 = from + 224, v225 = from + 225, v226 = from + 226, v227 = from + 227, v228 = from + 228, v229 = from + 229;
        int v230 = from + 230, v231 = from + 231, v232 = from + 232, v233 = from + 233, v234 = from + 234, v235 = from + 235, v236 = from + 236, v237 = from + 237, v238 = from + 238, v239 = from + 239;
        int v240 = from + 240, v241 = from + 241, v242 = from + 242, v243 = from + 243, v244 = from + 244, v245 = from + 245, v246 = from + 246, v247 = from + 247, v248 = from + 248, v249 = from + 249;
        int v250 = from + 250, v251 = from + 251, v252 = from + 252, v253 = from + 253, v254 = from + 254, v255 = from + 255, v256 = from + 256, v257 = from + 257, v258 = from + 258, v259 = from + 259;
        int v260 = from + 260, v261 = from + 261, v262 = from + 262, v263 = from + 263, v264 = from + 264, v265 = from + 265, v266 = from + 266, v267 = from + 267, v268 = from + 268, v269 = from + 269;
        int v270 = from + 270, v271 = from + 271, v272 = from + 272, v273 = from + 273, v274 = from + 274, v275 = from + 275, v276 = from + 276, v277 = from + 277, v278 = from + 278, v279 = from + 279;
        int v280 = from + 280, v281 = from + 281, v282 = from + 282, v283 = from + 283, v284 = from + 284, v285 = from + 285, v286 = from + 286, v287 = from + 287, v288 = from + 288, v289 = from + 289;
        int v290 = from + 290, v291 = from + 291, v292 = from + 292, v293 = from + 293, v294 = from + 294, v295 = from + 295, v296 = from + 296, v297 = from + 297, v298 = from + 298, v299 = from + 299;
        v299 += 1;
        v298 -= 200;
        long last = v299;
        Object none = null;
        return none == null ? v0 + v255 + v256 + (int) last : v299;
    }
}
